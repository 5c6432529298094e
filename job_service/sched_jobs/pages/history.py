"""The runs that have ended, as the segments of a service's folder tell them. They are read while it serves, too."""

from collections.abc import Iterator
from dataclasses import asdict, dataclass
from pathlib import Path

from sched_jobs.basics import Fault, Json
from sched_jobs.store.book import Book
from sched_jobs.store.entries import RAN, Ended, Running
from sched_jobs.store.segments import file_of, read_segment, segments_of


@dataclass(frozen=True)
class Bar:
    """A run. Moments are the service's, which were the wall clock's as it began; `end` is None while it runs."""

    name: str
    task: int
    run: int
    worker: int
    due: int
    start: int
    end: int | None
    code: int | None
    is_failed: bool
    outcome: str
    attempts: int

    def as_json(self) -> Json:
        return asdict(self)


def bar_of(ended: Ended) -> Bar:
    run = ended.run
    word = f"failed {ended.code}" if ended.is_failed else "ok"
    word += "" if ended.why == RAN else " (not seen)"
    word += ", dropped" if ended.outcome == "dropped" else ""
    return Bar(run.name, run.task, run.number, run.worker, run.due, run.start, ended.end, ended.code, ended.is_failed, word,
               ended.attempts)


def bar_of_running(run: Running) -> Bar:
    return Bar(run.name, run.task, run.number, run.worker, run.due, run.start, None, None, False, "runs", 1)


def folders_of(state: Path) -> list[Path]:
    """The folders of a service's segments: one, or on many machines one for each log."""
    logs = state / "logs"
    return sorted(logs.iterdir()) if logs.is_dir() else [state]


def books_of(state: Path) -> Iterator[tuple[Book, list[Ended]]]:
    """The book at the end of each segment of a folder, and what has ended in it."""
    try:
        segments = segments_of(state)
    except OSError as error:
        raise Fault(f"{state}: not read: {error.strerror}") from error
    for at in segments:
        try:
            kept = read_segment(state, at)
        except Fault:
            if file_of(state, "jobs", at).exists():
                raise
            continue  # it was taken away meanwhile
        ended: list[Ended] = []
        book = Book.of_json(kept.jobs, ended.append)
        book.replay([record for record in kept.records if record.get("after", 0) <= book.lines + len(kept.answers)], kept.answers)
        yield book, ended


def ended_in(state: Path) -> list[Bar]:
    """All runs that have ended, in their order, as far as they are kept."""
    folders = folders_of(state)
    found = [bar_of(one) for folder in folders for _, ended in books_of(folder) for one in ended]
    return found if len(folders) == 1 else sorted(found, key=lambda bar: bar.end or 0)


@dataclass(frozen=True)
class History:
    """The runs of a span, and its end: the last moment that is known."""

    bars: list[Bar]
    begin: int
    end: int


def history_of(state: Path, span: int | None) -> History:
    """The runs of the last while, or all that are kept, and those that are under way."""
    bars: list[Bar] = []
    moment = 0
    for folder in folders_of(state):
        book = None
        for book, ended in books_of(folder):
            bars += map(bar_of, ended)
            moment = max(moment, book.moment)
        if book is not None:
            bars += map(bar_of_running, book.running.values())
    begin = min((bar.start for bar in bars), default=moment) if span is None else moment - span
    return History([bar for bar in bars if bar.end is None or bar.end >= begin], begin, moment)
