"""What the executor is to be told of a job, as it stands: that a task of it is submitted, or cancelled, or nothing.

A job has one task at a time. `every` and `after` are periodic tasks of the executor's. Each run at a calendar time is a task of its
own, submitted once the one before has ended; and so is one that is made up for, behind which a periodic task goes on upon its grid.
A moment was missed that has passed while nobody was there, or while the run before went on; what only waits for a worker was not.
"""

import random
from dataclasses import dataclass

from sched_jobs.basics import SECOND, Json
from sched_jobs.cron import Cron
from sched_jobs.service.clocks import LEAST_SETTING, Clocks
from sched_jobs.store.book import Book
from sched_jobs.store.entries import LIVE, PAUSED, Entry

# A clock that is set back by more than this was wrong before, and what it showed then counts no more.
LONGEST_SET_BACK = 3 * 3_600 * SECOND
MOST_COUNTED = 100


@dataclass(frozen=True)
class Wish:
    """A line for the executor, and what is noted of it, if anything."""

    line: str
    note: Json | None = None


def is_wanted(entry: Entry, book: Book) -> bool:
    """Whether anything is wanted of a job."""
    return is_cancel_wanted(entry, book) or is_submission_wanted(entry, book)


def is_cancel_wanted(entry: Entry, book: Book) -> bool:
    """Whether its task is to be cancelled. One that is under way, and has no other run, is none that a pause would hold up."""
    if not entry.is_open or entry.task is None:
        return False
    runs = any(run.task == entry.task for run in book.running.values())
    return entry.is_given_up or (entry.state == PAUSED or is_of_before(entry)) and not (runs and entry.is_once)


def is_submission_wanted(entry: Entry, book: Book) -> bool:
    """Whether it has no task, and is to have one. Its runs do not overlap."""
    return entry.is_open and entry.task is None and entry.state == LIVE and not book.runs_of(entry.name)


def wish_of(entry: Entry, book: Book, clocks: Clocks, call: int) -> Wish | None:
    """What is wanted of a job, where calls are made at a moment."""
    if is_cancel_wanted(entry, book):
        return Wish(f"cancel {entry.task}")
    return submission(entry, clocks, call) if is_submission_wanted(entry, book) else None


def is_of_before(entry: Entry) -> bool:
    """Whether the task was submitted for other times than those that are meant now."""
    return entry.task_note.get("version", 0) != entry.version


def submission(entry: Entry, clocks: Clocks, call: int) -> Wish:
    """The line that submits the next task of a job."""
    timing = entry.order.timing
    if timing.every is not None:
        return on_the_grid(entry, timing.every, call)
    if timing.after is not None:
        first = timing.after if entry.due is None or entry.grid is not None else max(0, entry.due - call)
        return noted(entry, f"call fixed {first} {timing.after}")
    if timing.cron is not None:
        return at_the_next_time(entry, clocks, call)
    if timing.at is not None:
        aim = known(entry.aim)
        return noted(entry, f"call schedule {delay_until(aim, clocks, call)}", aim=aim)
    return noted(entry, f"call schedule {max(0, known(entry.due) - call)}")


def known(moment: int | None) -> int:
    """A moment that a job of its kind has."""
    assert moment is not None
    return moment


def noted(entry: Entry, line: str, **note: object) -> Wish:
    return Wish(line, {"job": entry.name, "version": entry.version, **note})


def delay_until(aim: int, clocks: Clocks, call: int) -> int:
    """How long it is from a call to a moment of the wall clock."""
    return max(0, aim - clocks.wall_at(call))


# ---- a grid of the service's moments


def handled_of(entry: Entry, period: int) -> int:
    """The last moment of its grid of which a run has begun or was left out."""
    return known(entry.due) - period if entry.grid is None else entry.grid


def on_the_grid(entry: Entry, period: int, call: int) -> Wish:
    """A periodic task from the next moment of the grid on, or one for a moment that was missed."""
    handled = handled_of(entry, period)
    missed = max(0, (call - 1 - handled) // period)
    catch_up = entry.order.catch_up
    if missed and catch_up == "all":
        return noted(entry, "call execute", grid=handled + period)
    if missed and catch_up == "last":
        return noted(entry, "call execute", grid=handled + missed * period, missed=missed - 1)
    following = handled + (missed + 1) * period
    skipped = {"missed": missed, "skip": {"grid": handled + missed * period}} if missed else {}
    return noted(entry, f"call rate {max(0, following - call)} {period}", **skipped)


# ---- calendar times


def at_the_next_time(entry: Entry, clocks: Clocks, call: int) -> Wish:
    """A task for the next calendar time, or for one that was missed."""
    wall, calendar, catch_up = clocks.wall_at(call), entry.order.timing.calendar(), entry.order.catch_up
    aimed = known(entry.aimed)
    if aimed > wall + LONGEST_SET_BACK:
        aimed = wall
    behind, until = aimed // SECOND, wall // SECOND
    last = calendar.last(behind, until)
    if last is None or catch_up == "none":
        aim, missed = calendar.next(max(behind, until)), counted(calendar, behind, last)
    elif catch_up == "all":
        aim, missed = calendar.next(behind), 0
    else:
        aim, missed = last, counted(calendar, behind, last) - 1
    jitter = random.randrange(entry.order.jitter + 1)
    delay = max(0, aim * SECOND + jitter - wall)
    return noted(entry, f"call schedule {delay}", aim=aim * SECOND, jitter=jitter, **({"missed": missed} if missed else {}))


def counted(calendar: Cron, behind: int, last: int | None) -> int:
    """How many times there are behind one up to the last, counted up to some."""
    number = 0
    while last is not None and behind < last and number < MOST_COUNTED:
        behind, number = calendar.next(behind), number + 1
    return number


# ---- what stands no more once a clock was set, the machine slept, nobody was there, or a run took longer than its period


def is_stale(entry: Entry, clocks: Clocks, now: int) -> bool:
    """Whether a task that waits is to be taken back, since it is due at another moment now, or was missed and is left out."""
    if entry.task is None or entry.task_due is None or entry.state != LIVE:
        return False
    if "aim" in entry.task_note:
        return is_stale_aim(entry, clocks, now)
    if entry.is_once or entry.task_due >= now - LEAST_SETTING or "grid" in entry.task_note:
        return False
    period, catch_up = entry.order.timing.every, entry.order.catch_up
    return catch_up == "none" or catch_up == "last" and period is not None and entry.task_due + period <= now


def is_stale_aim(entry: Entry, clocks: Clocks, now: int) -> bool:
    aim, wall = entry.task_note["aim"], clocks.wall_at(now)
    due = now + aim + entry.task_note.get("jitter", 0) - wall
    if abs(due - entry.task_due) >= LEAST_SETTING and max(due, entry.task_due) > now:
        return True
    if entry.is_once or aim > wall - LEAST_SETTING:
        return False
    if entry.order.catch_up == "last":
        return entry.order.timing.calendar().next(aim // SECOND) * SECOND <= wall
    return entry.order.catch_up == "none"


def is_missed(entry: Entry, clocks: Clocks, now: int) -> bool:
    """Whether a job that runs once was to run while nobody was there, and says that it does not run then."""
    if not entry.is_open or not entry.is_once or entry.state != LIVE or entry.task_due is None:
        return False
    if entry.table.get("catch_up") != "none":
        return False
    due = entry.task_due if entry.aim is None else now + entry.aim - clocks.wall_at(now)
    return due < now - LEAST_SETTING
