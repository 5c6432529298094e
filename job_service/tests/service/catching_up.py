"""What is submitted of a job as it stands: what was missed, on a grid and at calendar times, and where a clock is set."""

from datetime import datetime

from calendar_times import has_cron
from house import Checks
from sched_jobs.basics import SECOND
from sched_jobs.service.clocks import Clocks
from sched_jobs.service.wishes import is_missed, is_stale, submission
from sched_jobs.store.entries import Entry

MINUTE, HOUR, DAY = 60 * SECOND, 3_600 * SECOND, 86_400 * SECOND


def utc(text: str) -> int:
    return int(datetime.fromisoformat(text + "+00:00").timestamp()) * SECOND


class Hands:
    """Clocks that are set by hand."""

    def __init__(self, wall: int, last: int = 0) -> None:
        self.wall, self.steady, self.waking = wall, 1_000 * SECOND, 1_000 * SECOND
        self.clocks = Clocks(last, lambda: self.wall, lambda: self.steady, lambda: self.waking)

    def go(self, span: int) -> None:
        self.wall, self.steady, self.waking = self.wall + span, self.steady + span, self.waking + span


def entry(keys: dict, **fields: object) -> Entry:
    return Entry("a", {"command": ["true"]} | keys, 0, **fields)


def line_of(one: Entry, hands: Hands) -> tuple[str, dict]:
    wish = submission(one, hands.clocks, hands.clocks.now())
    return wish.line, {key: value for key, value in wish.note.items() if key not in ("job", "version", "jitter")}


NOON = utc("2026-11-30 12:00:00")
# A period of a minute, whose last run was of a moment so long ago, and what is submitted.
GRID = [
    ("last", 30 * SECOND, f"call rate {30 * SECOND} {MINUTE}", {}),
    ("none", 30 * SECOND, f"call rate {30 * SECOND} {MINUTE}", {}),
    ("last", 90 * SECOND, "call execute", {"grid": NOON - 30 * SECOND, "missed": 0}),
    ("last", 10 * MINUTE + SECOND, "call execute", {"grid": NOON - SECOND, "missed": 9}),
    ("all", 10 * MINUTE + SECOND, "call execute", {"grid": NOON - 9 * MINUTE - SECOND}),
    ("none", 10 * MINUTE + SECOND, f"call rate {59 * SECOND} {MINUTE}", {"missed": 10, "skip": {"grid": NOON - SECOND}}),
]
# At 2 each night in Greenwich, what was aimed at last, the wall clock, and what is submitted: the span, and what is meant.
NIGHTS = [
    ("last", "2026-11-30 02:00", "2026-11-30 12:00", 14 * HOUR, "2026-12-01 02:00", 0),
    ("last", "2026-11-27 02:00", "2026-11-30 12:00", 0, "2026-11-30 02:00", 2),
    ("all", "2026-11-27 02:00", "2026-11-30 12:00", 0, "2026-11-28 02:00", 0),
    ("none", "2026-11-27 02:00", "2026-11-30 12:00", 14 * HOUR, "2026-12-01 02:00", 3),
    ("none", "2026-11-30 02:00", "2026-11-30 12:00", 14 * HOUR, "2026-12-01 02:00", 0),
    # The wall clock was set back over a run by less than three hours, and by more.
    ("last", "2026-11-30 02:00", "2026-11-30 01:10", 24 * HOUR + 50 * MINUTE, "2026-12-01 02:00", 0),
    ("last", "2026-12-30 02:00", "2026-11-30 01:10", 50 * MINUTE, "2026-11-30 02:00", 0),
]


def on_a_grid(_: str) -> Checks:
    for catch_up, ago, line, note in GRID:
        hands = Hands(NOON)
        one = entry({"every": "1m", "catch_up": catch_up}, due=NOON - ago, grid=NOON - ago - 1)
        found = line_of(entry({"every": "1m", "catch_up": catch_up}, due=NOON - HOUR, grid=NOON - ago), Hands(NOON + 1))
        same = found[0].split()[:2] == line.split()[:2] and found[1] == note and close(found[0], line)
        yield f"{catch_up}, {ago // SECOND} s ago: {found}", same and one.is_open and hands.clocks.now() == NOON
    found = line_of(entry({"every": "1m"}, due=NOON + MINUTE), Hands(NOON))
    yield "the first run is a period later", close(found[0], f"call rate {MINUTE} {MINUTE}")


def close(found: str, wanted: str) -> bool:
    """Whether the numbers of two lines are within a few nanoseconds."""
    pairs = zip(found.split(), wanted.split(), strict=True)
    return all(one == other or abs(int(one) - int(other)) < 5 for one, other in pairs)


def at_night(_: str) -> Checks:
    for catch_up, aimed, wall, span, aim, missed in NIGHTS if has_cron() else []:
        one = entry({"cron": "0 2 * * *", "timezone": "UTC", "catch_up": catch_up}, aimed=utc(aimed))
        line, note = line_of(one, Hands(utc(wall)))
        yield f"{catch_up}, {aimed}, {wall}: {line} {note}", (
            close(line, f"call schedule {span}") and note["aim"] == utc(aim) and note.get("missed", 0) == missed)


def with_moments_ahead(_: str) -> Checks:
    """The service's moments do not go back where the wall clock was set back: the span goes by what the wall clock shows."""
    hands = Hands(NOON, last=NOON + DAY)
    yield "they go on", hands.clocks.now() == NOON + DAY
    line, note = line_of(entry({"at": "13:00"}, aim=NOON + HOUR), hands)
    yield "at one o'clock", close(line, f"call schedule {HOUR}") and note["aim"] == NOON + HOUR
    line, _ = line_of(entry({"in": "5m"}, due=NOON + DAY + 5 * MINUTE), hands)
    yield "in five minutes", close(line, f"call schedule {5 * MINUTE}")


def settings(_: str) -> Checks:
    """A clock that is set, and a machine that sleeps, are seen once; a clock that is kept right is not."""
    hands = Hands(NOON)
    yield "nothing at first", not hands.clocks.was_set()
    hands.go(MINUTE)
    hands.wall += SECOND // 10
    yield "nothing for a tenth", not hands.clocks.was_set()
    hands.wall += HOUR
    yield "an hour forward", hands.clocks.was_set() and not hands.clocks.was_set()
    hands.wall -= 2 * HOUR
    yield "and back", hands.clocks.was_set() and not hands.clocks.was_set()
    hands.wall, hands.steady = hands.wall + HOUR, hands.steady + HOUR
    yield "a sleep", hands.clocks.was_set() and not hands.clocks.was_set()


def stale_ones(_: str) -> Checks:
    """What waits is taken back where it is due at another moment now, or is left out."""
    hands = Hands(NOON)
    clocks = hands.clocks

    def is_so(keys: dict, due: int, **note: object) -> bool:
        return is_stale(entry(keys, aimed=NOON - DAY, due=due, task=3, task_due=due, task_note=note), clocks, clocks.now())

    nightly = {"cron": "0 2 * * *", "timezone": "UTC"}
    if has_cron():
        yield "a calendar time stands", not is_so(nightly, NOON + 14 * HOUR, aim=NOON + 14 * HOUR)
        yield "with its jitter", not is_so(nightly, NOON + 14 * HOUR + SECOND, aim=NOON + 14 * HOUR, jitter=SECOND)
        yield "one that was missed is made up for", not is_so(nightly, NOON - 10 * HOUR, aim=NOON - 10 * HOUR)
        yield "of two the last one", is_so(nightly, NOON - 34 * HOUR, aim=NOON - 34 * HOUR)
        yield "each", not is_so(nightly | {"catch_up": "all"}, NOON - 34 * HOUR, aim=NOON - 34 * HOUR)
        yield "or none", is_so(nightly | {"catch_up": "none"}, NOON - 10 * HOUR, aim=NOON - 10 * HOUR)
        hands.wall += HOUR
        yield "the clock is set forward", is_so(nightly, NOON + 14 * HOUR, aim=NOON + 14 * HOUR)
        yield "a span stays", not is_so({"in": "1h"}, NOON + HOUR)
        yield "so does a period", not is_so({"every": "2h"}, NOON + HOUR)
        hands.wall -= HOUR
    yield "a period that was missed once", not is_so({"every": "1m"}, NOON - 30 * SECOND)
    yield "more than once", is_so({"every": "1m"}, NOON - 90 * SECOND)
    yield "each is made up for", not is_so({"every": "1m", "catch_up": "all"}, NOON - 90 * SECOND)
    yield "or left out", is_so({"every": "1m", "catch_up": "none"}, NOON - 30 * SECOND)
    yield "a pause that was missed", is_so({"after": "1m", "catch_up": "none"}, NOON - 30 * SECOND)
    once = entry({"in": "1m", "catch_up": "none"}, due=NOON - HOUR, task=1, task_due=NOON - HOUR)
    yield "one that runs once is left out", is_missed(once, clocks, clocks.now())
    other = entry({"in": "1m"}, due=NOON - HOUR, task=1, task_due=NOON - HOUR)
    yield "where it says so", not is_missed(other, clocks, clocks.now())


TESTS = [on_a_grid, at_night, with_moments_ahead, settings, stale_ones]
