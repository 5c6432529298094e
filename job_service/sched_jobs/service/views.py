"""What is told of jobs and of the service, as JSON has it. Moments are of the wall clock, in nanoseconds since 1970."""

from sched_jobs.basics import Json
from sched_jobs.service.clocks import Clocks
from sched_jobs.store.book import Book
from sched_jobs.store.entries import LIVE, Entry

# A job is late that is due since so long, and was not begun.
LATE = 1_000_000_000


def state_of(entry: Entry, book: Book) -> str:
    """In a word: `runs`, `waits`, `paused`, or how it is over."""
    if entry.over is not None:
        return entry.over
    if book.runs_of(entry.name):
        return "runs"
    return "waits" if entry.state == LIVE else entry.state


def of_entry(entry: Entry, book: Book, clocks: Clocks) -> Json:
    """A job as `list` and `show` have it."""
    ahead = clocks.ahead()
    last = entry.last and entry.last | {"start": entry.last["start"] + ahead, "end": entry.last["end"] + ahead}
    running = [{"task": run.task, "run": run.number, "worker": run.worker, "start": run.start + ahead, "due": run.due + ahead}
               for run in book.runs_of(entry.name)]
    return {
        "name": entry.name, "state": state_of(entry, book), "next": None if entry.task_due is None else entry.task_due + ahead,
        "aim": entry.task_note.get("aim") if entry.task_due is not None else None, "task": entry.task, "runs": entry.runs,
        "failed": entry.failed, "missed": entry.missed, "last": last, "running": running, "source": entry.source,
        "added": entry.added, "table": entry.table,
    }


def of_service(book: Book, clocks: Clocks, workers: int, served_since: int) -> Json:
    """The service in numbers, as `status` and the metrics have it."""
    now = clocks.now()
    dues = [entry.task_due for entry in book.entries.values() if entry.task_due is not None and entry.is_open]
    due = [moment for moment in dues if moment <= now]
    states: dict[str, int] = {}
    for entry in book.entries.values():
        state = state_of(entry, book)
        states[state] = states.get(state, 0) + 1
    return {
        "workers": workers, "since": served_since, "now": clocks.wall(), "lines": book.lines, "states": states,
        "running": len(book.running), "due": len(due), "late": sum(now - moment > LATE for moment in due),
        "latest": max((now - moment for moment in due), default=0), "next": min(dues) + clocks.ahead() if dues else None,
        "runs": book.runs, "failed": book.failed, "missed": sum(entry.missed for entry in book.entries.values()),
    }
