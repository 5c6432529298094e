"""Runs a plan over event lines, and writes its trace: drive.py PLAN WORKERS < EVENTS.

The status is 2 where the words are not these, and 1 at any other fault, as with `sched run`.
"""

from __future__ import annotations

import operator
import re
import sys
from collections.abc import Callable
from pathlib import Path
from typing import NamedTuple

from sched_timers import Executor, ExecutorError
from sched_timers.executor import WorkerCountError

EVENTS = 1_000_000
NUMBER = "(0|[1-9][0-9]{0,19})"
BITS_8, BITS_32, BITS_64 = 2**8 - 1, 2**32 - 1, 2**64 - 1


class Form(NamedTuple):
    """An event: the form of its line, the call that it makes, and the greatest number at each of
    its places."""

    line: re.Pattern[bytes]
    call: Callable[..., object]
    most: tuple[int, ...]


def form(line: str, call: Callable[..., object], *most: int) -> Form:
    """The form of a line with an N for each number."""
    return Form(re.compile(f"{line.replace('N', NUMBER)}\n".encode()), call, most)


FORMS = [
    form("clock N", Executor.clock, BITS_64),
    form("start N", Executor.start, BITS_8),
    form("finish N ok N", Executor.finish, BITS_8, BITS_64),
    form("finish N fail N", Executor.fail, BITS_8, BITS_32),
    form("cancel N", Executor.cancel, BITS_32),
]


def take(executor: Executor, line: bytes) -> bool:
    """Hands an event line to the executor; false where the line is none."""
    for form in FORMS:
        if (found := form.line.fullmatch(line)) is None:
            continue
        numbers = list(map(int, found.groups()))
        if all(map(operator.le, numbers, form.most)):
            form.call(executor, *numbers)
            return True
    return False


def run(executor: Executor) -> int:
    """Takes all event lines of the standard input, and writes their trace; the number of the first
    line that is none, or 0."""
    for number, line in enumerate(sys.stdin.buffer, 1):
        if not take(executor, line):
            return number
        sys.stdout.buffer.write(executor.text())
    sys.stdout.buffer.flush()
    return 0


def main(words: list[str]) -> int:
    """The exit status."""
    if len(words) != 2 or not re.fullmatch(NUMBER, words[1]) or int(words[1]) > BITS_32:
        print("drive.py PLAN WORKERS < EVENTS", file=sys.stderr)
        return 2
    try:
        with Executor(Path(words[0]).read_bytes(), int(words[1]), EVENTS) as executor:
            bad = run(executor)
    except (ExecutorError, OSError) as error:
        print(f"drive: {error}", file=sys.stderr)
        return 2 if isinstance(error, WorkerCountError) else 1
    if bad:
        print(f"drive: event line {bad}", file=sys.stderr)
    return 1 if bad else 0


if __name__ == "__main__":
    sys.exit(main(sys.argv[1:]))
