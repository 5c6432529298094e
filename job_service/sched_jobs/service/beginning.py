"""How a service begins: it takes its folder, and stands where the one before it stood."""

import os
import time
from dataclasses import dataclass
from pathlib import Path

from sched_jobs.basics import Fault
from sched_jobs.service.clocks import Clocks
from sched_jobs.service.engine import Engine, opened
from sched_jobs.service.marks import Marks, boot
from sched_jobs.store.book import Book
from sched_jobs.store.files import Appended, InUse, content_of, locked, replace
from sched_jobs.store.segments import Kept, Store, file_of, read_segment, segments_of

OTHERS_WRITE = 0o022
SECONDS_TO_TAKE = 0.5
EMPTY = Kept(0, Book().as_json(), [], [])


@dataclass
class Stand:
    """All that a service has at its begin. `was_rebooted` says that the machine was started since the last one."""

    folder: Path
    lock: int
    book: Book
    engine: Engine
    store: Store
    clocks: Clocks
    marks: Marks
    was_rebooted: bool


def taken(folder: Path) -> int:
    """Makes the folder where it is not there, for its user alone, and takes its lock. A service that was killed has it for a moment
    longer, where it was starting a process."""
    try:
        folder.mkdir(mode=0o700, parents=True, exist_ok=True)
    except OSError as error:
        raise Fault(f"{folder}: not made: {error.strerror}") from error
    found = os.stat(folder)
    if found.st_uid != os.geteuid() or found.st_mode & OTHERS_WRITE:
        raise Fault(f"{folder}: others may write there")
    limit = time.monotonic() + SECONDS_TO_TAKE
    while True:
        try:
            return locked(folder / "lock", str(folder))
        except InUse:
            if time.monotonic() > limit:
                raise
            time.sleep(0.05)


def kept_in(folder: Path) -> Kept:
    """What the last segment holds, and nothing in a new folder."""
    at = segments_of(folder)
    return read_segment(folder, at[-1]) if at else EMPTY


def whole(folder: Path, kept: Kept, answers: list[list[str]]) -> None:
    """Cuts what is torn, and adds to the trace what it lacks, so that the segment can be read by whoever wants to."""
    Appended(file_of(folder, "records", kept.at), kept.record_bytes).close()
    trace = Appended(file_of(folder, "trace", kept.at), kept.trace_bytes)
    trace.append("".join(line + "\n" for answer in answers for line in answer).encode(), is_durable=True)
    trace.close()


def book_of(kept: Kept, engine: Engine) -> Book:
    """The jobs as they stand. What was noted of lines that were not taken is void."""
    book = Book.of_json(kept.jobs)
    book.replay(kept.records, kept.answers + engine.answered)
    book.notes.clear()
    if book.lines != engine.lines:
        raise Fault(f"the journal has {engine.lines} lines, and the records stand at {book.lines}")
    ours = {(run.worker, run.task, run.number, run.due) for run in book.running.values()}
    if ours != engine.running:
        raise Fault(f"by the journal these run: {sorted(engine.running)}, and by the records these: {sorted(ours)}")
    return book


def begin(folder: Path, program: str, workers: int) -> Stand:
    """Takes the folder, and all that stands in it."""
    lock = taken(folder)
    kept = kept_in(folder)
    engine = opened(program, folder / "journal", workers, kept.jobs["lines"] + len(kept.answers))
    try:
        book = book_of(kept, engine)
        if segments_of(folder):
            whole(folder, kept, engine.answered)
        store = Store(folder, book.lines, book.as_json())
        was_rebooted = content_of(folder / "boot").decode().strip() != boot()
        if was_rebooted:
            replace(folder / "boot", boot().encode() + b"\n")
    except BaseException:
        engine.abandon()
        raise
    return Stand(folder, lock, book, engine, store, Clocks(book.moment), Marks(folder / "runs"), was_rebooted)
