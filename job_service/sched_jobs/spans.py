"""Spans of time as people write them: 90s, 5m, 1h30m, 250ms."""

import re

from sched_jobs.basics import SECOND

MILLISECOND = SECOND // 1_000
UNITS = {"ms": MILLISECOND, "s": SECOND, "m": 60 * SECOND, "min": 60 * SECOND, "h": 3_600 * SECOND, "d": 86_400 * SECOND,
         "w": 7 * 86_400 * SECOND}
FORM = "a span is wanted, as 90s, 5m, 1h30m or 250ms"
LONGEST = 2**62
PART = re.compile(r"(\d+)(ms|min|s|m|h|d|w)", re.ASCII)
WHOLE = re.compile(rf"(?:{PART.pattern})+", re.ASCII)


def read_span(text: str) -> int:
    """The nanoseconds of a span, or a ValueError."""
    if WHOLE.fullmatch(text) is None:
        raise ValueError(FORM)
    span = sum(int(number) * UNITS[unit] for number, unit in PART.findall(text))
    if span > LONGEST:
        raise ValueError("a span is 146 years at most")
    return span


def write_span(span: int) -> str:
    """A span in the two greatest of its units, which says a shorter one to the millisecond."""
    parts, left = [], span
    for unit in ("d", "h", "m", "s", "ms"):
        number, left = divmod(left, UNITS[unit])
        if number:
            parts.append(f"{number}{unit}")
    return "".join(parts[:2]) or "0s"
