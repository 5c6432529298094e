"""Calendar times: which moments the fields of cron mean, also where a zone sets its clock, and spans."""

from datetime import datetime
from zoneinfo import ZoneInfo

from house import Checks
from sched_jobs import cron
from sched_jobs.spans import read_span, write_span

BERLIN, LORD_HOWE, NEW_YORK, UTC = map(ZoneInfo, ("Europe/Berlin", "Australia/Lord_Howe", "America/New_York", "UTC"))
# The fields, the zone, a moment, and the moments behind it: all in universal time. Berlin sets its clock on 2026-10-25 at 01:00
# back from 3 to 2, and on 2027-03-28 at 01:00 forward from 2 to 3.
TIMES = [
    ("0 2 * * *", BERLIN, "2026-12-01 00:00", ["12-01 01:00", "12-02 01:00"]),
    ("*/20 9-10 * * 1-5", BERLIN, "2026-12-04 09:30", ["12-04 09:40", "12-07 08:00"]),
    ("0 0 29 2 *", UTC, "2026-12-01 00:00", ["02-29 00:00"]),
    ("@daily", BERLIN, "2026-10-24 12:00", ["10-24 22:00", "10-25 23:00"]),
    # A local time that is there twice is met once, the first time.
    ("30 2 * * *", BERLIN, "2026-10-24 12:00", ["10-25 00:30", "10-26 01:30"]),
    ("30 2 * * *", BERLIN, "2026-10-25 00:30", ["10-26 01:30"]),
    ("30 2 * * *", BERLIN, "2026-10-25 01:10", ["10-26 01:30"]),
    ("0,30 1-3 * * *", BERLIN, "2026-10-24 22:50", [
        "10-24 23:00", "10-24 23:30", "10-25 00:00", "10-25 00:30", "10-25 02:00", "10-25 02:30", "10-26 00:00"]),
    # One that is not there is met when it would be.
    ("30 2 * * *", BERLIN, "2027-03-27 12:00", ["03-28 01:30", "03-29 00:30"]),
    ("30 2 * * *", BERLIN, "2027-03-28 01:10", ["03-28 01:30", "03-29 00:30"]),
    ("0 3 * * *", BERLIN, "2027-03-27 12:00", ["03-28 01:00", "03-29 01:00"]),
    ("30 2 * * *", NEW_YORK, "2027-03-14 00:00", ["03-14 07:30", "03-15 06:30"]),
    ("15 2 * * *", LORD_HOWE, "2026-10-03 12:00", ["10-03 15:45", "10-04 15:15"]),
    # Where the hour is a star, what the clock shows counts: no hole, and no burst.
    ("*/30 * * * *", BERLIN, "2026-10-24 23:50", ["10-25 00:00", "10-25 00:30", "10-25 01:00", "10-25 01:30", "10-25 02:00"]),
    ("*/30 * * * *", BERLIN, "2027-03-28 00:10", ["03-28 00:30", "03-28 01:00", "03-28 01:30"]),
    ("0 */2 * * *", BERLIN, "2027-03-27 22:30", ["03-27 23:00", "03-28 02:00", "03-28 04:00"]),
    ("0 */2 * * *", BERLIN, "2026-10-24 21:30", ["10-24 22:00", "10-25 00:00", "10-25 01:00", "10-25 03:00"]),
    ("10 * * * *", LORD_HOWE, "2026-10-03 14:00", ["10-03 14:40", "10-03 16:10"]),
]
BAD = [
    ("0 2 * *", "five fields"), ("0 2 * * * *", "five fields"), ("", "five fields"), ("61 * * * *", "out of range"),
    ("x * * * *", "not acceptable"),
    ("0 0 31 2 *", "never comes"), ("@reboot", ""), ("* * * * 9", "out of range"), ("1-x * * * *", ""),
]
SPANS = [
    ("90s", 90_000), ("5m", 300_000), ("5min", 300_000), ("1h30m", 5_400_000), ("250ms", 250), ("2d", 172_800_000), ("1w", 604_800_000),
    ("0s", 0),
]
BAD_SPANS = ["", "5", "m", "5 m", "-5m", "5M", "1.5h", "5m ", "1h30", "\u0665m", "99999999999d"]


def utc(text: str) -> int:
    return int(datetime.fromisoformat(text + "+00:00").timestamp())


def shown(moment: int) -> str:
    return datetime.fromtimestamp(moment, UTC).strftime("%m-%d %H:%M")


def has_cron() -> bool:
    if cron.croniter is None:
        print("python3-croniter is not there: calendar times are not tried")
    return cron.croniter is not None


def moments(_: str) -> Checks:
    for fields, zone, behind, wanted in TIMES if has_cron() else []:
        times, moment, found = cron.Cron(fields, zone), utc(behind), []
        for _ in wanted:
            moment = times.next(moment)
            found.append(shown(moment))
        yield f"{fields} in {zone} behind {behind}: {found}", found == wanted


def last_ones(_: str) -> Checks:
    """The last of many that were missed, in little time."""
    for fields, behind, until, wanted in [
        ("* * * * *", "2020-01-01 00:00", "2026-11-30 12:00", "11-30 12:00"),
        ("0 2 * * *", "2026-11-29 01:00", "2026-11-30 00:59", None),
        ("0 2 * * *", "2026-11-29 00:59", "2026-11-30 00:59", "11-29 01:00"),
        ("0 0 1 1 *", "2020-01-02 00:00", "2026-11-30 12:00", "12-31 23:00"),
    ] if has_cron() else []:
        found = cron.Cron(fields, BERLIN).last(utc(behind), utc(until))
        yield f"{fields} from {behind} to {until}", (found and shown(found)) == wanted


def bad_fields(_: str) -> Checks:
    for fields, why in BAD if has_cron() else []:
        try:
            cron.Cron(fields, UTC)
            yield f"{fields!r} is refused", False
        except ValueError as error:
            yield f"{fields!r} is refused: {error}", why in str(error)


def spans(_: str) -> Checks:
    for text, milliseconds in SPANS:
        yield text, read_span(text) == milliseconds * 1_000_000
    for text in BAD_SPANS:
        try:
            read_span(text)
            yield f"{text!r} is none", False
        except ValueError:
            yield f"{text!r} is none", True
    written = [write_span(span * 1_000_000) for span in (0, 250, 5_400_000, 90_061_001)]
    yield "they are written in two units", written == ["0s", "250ms", "1h30m", "1d1h"]


TESTS = [moments, last_ones, bad_fields, spans]
