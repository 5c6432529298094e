"""What the executor is told of the jobs, beside what is asked and what has ended: what is wanted of them, and what stands no more."""

from collections.abc import Iterable

from sched_jobs.service.clocks import Clocks
from sched_jobs.service.turns import Turn
from sched_jobs.service.wishes import is_missed, is_stale, is_wanted, wish_of
from sched_jobs.store.book import Book
from sched_jobs.store.entries import MISSED


def wish(turn: Turn, book: Book, clocks: Clocks, names: Iterable[str], call: int) -> None:
    """Tells the executor what is wanted of these jobs, where calls are made at a moment."""
    for name in names:
        entry = book.entries.get(name)
        if entry is None:
            continue
        if is_stale(entry, clocks, turn.now):
            turn.say(f"cancel {entry.task}")
        elif (wanted := wish_of(entry, book, clocks, call)) is not None:
            turn.say(wanted.line, wanted.note, is_durable=True)


def take_back(turn: Turn, book: Book, clocks: Clocks, now: int) -> None:
    """Takes back what stands no more, since a clock was set or nobody was there. The next turn submits it as it stands now. Once, the
    executor is told to keep nothing of what is taken back."""
    if not book.removes:
        turn.say("call policy remove true")
    for entry in list(book.entries.values()):
        if is_missed(entry, clocks, now):
            turn.record({"after": book.lines, "set": entry.name, "state": MISSED, "missed": entry.missed + 1})
        elif is_stale(entry, clocks, now):
            turn.say(f"cancel {entry.task}")
            book.dirty.discard(entry.name)


def still_wanted(book: Book, clocks: Clocks, names: Iterable[str]) -> set[str]:
    """Of which of these jobs anything is wanted still."""
    now = clocks.now()
    entries = [book.entries[name] for name in names if name in book.entries]
    return {entry.name for entry in entries if is_wanted(entry, book) or is_stale(entry, clocks, now)}
