"""What the service does, in numbers: a file in Prometheus' text format, which a collector of text files reads."""

import os
import time
from collections.abc import Mapping
from pathlib import Path
from typing import Protocol

from sched_jobs.basics import SECOND, Json, tell
from sched_jobs.service import views
from sched_jobs.service.clocks import Clocks
from sched_jobs.store.book import Book
from sched_jobs.store.entries import TAKEN_AS_OK

SECONDS_BETWEEN = 5
FRONT = "sched_jobs"
HELP = {
    "up": ("gauge", "1 while the service serves."),
    "workers": ("gauge", "How many jobs run at a time."),
    "jobs": ("gauge", "Jobs by their state."),
    "running": ("gauge", "Runs under way."),
    "due": ("gauge", "Jobs that are due and wait for a worker."),
    "late": ("gauge", "Jobs that are due since more than a second."),
    "lateness_seconds": ("gauge", "Since when the job is due that waits longest."),
    "lines_total": ("counter", "Lines of the journal."),
    "runs_total": ("counter", "Runs that have ended."),
    "failed_total": ("counter", "Runs that have failed."),
    "missed_total": ("counter", "Runs that were missed, and not made up for."),
    "job_failed": ("gauge", "1 where the last run of a job failed."),
    "job_last_end_seconds": ("gauge", "When the last run of a job ended, by the wall clock."),
    "written_seconds": ("gauge", "When this file was written."),
}


class House(Protocol):
    book: Book
    clocks: Clocks
    workers: int
    served_since: int


def samples(house: House, is_up: bool) -> dict[str, list[tuple[str, object]]]:
    """The samples of each name: the labels, and the value."""
    told = views.of_service(house.book, house.clocks, house.workers, house.served_since)
    found = {word: [("", told[word])] for word in ("workers", "running", "due", "late")}
    found |= {f"{word}_total": [("", told[word])] for word in ("lines", "runs", "failed", "missed")}
    found |= {"up": [("", int(is_up))], "lateness_seconds": [("", told["latest"] / SECOND)]}
    found |= {"written_seconds": [("", told["now"] / SECOND)]}
    found["jobs"] = [(f'{{state="{state}"}}', count) for state, count in sorted(told["states"].items())]
    ended = [(entry.name, entry.last) for entry in house.book.entries.values() if entry.last is not None]
    ahead = house.clocks.ahead()
    found["job_failed"] = [(f'{{job="{name}"}}', int(is_failure(last))) for name, last in ended]
    found["job_last_end_seconds"] = [(f'{{job="{name}"}}', (last["end"] + ahead) / SECOND) for name, last in ended]
    return found


def is_failure(last: Json) -> bool:
    return bool(last["code"]) and last["why"] != TAKEN_AS_OK


def labelled(labels: str, more: str) -> str:
    """Labels, with another one where there is one."""
    words = [word for word in (more, labels.strip("{}")) if word]
    return f"{{{','.join(words)}}}" if words else ""


def text_of(houses: Mapping[str, House], is_up: bool) -> str:
    """The text. Of several houses each has a label of its own."""
    lines, found = [], {label: samples(house, is_up) for label, house in houses.items()}
    for name, (kind, help_text) in HELP.items():
        lines += [f"# HELP {FRONT}_{name} {help_text}", f"# TYPE {FRONT}_{name} {kind}"]
        lines += [f"{FRONT}_{name}{labelled(labels, label)} {value}" for label in found for labels, value in found[label][name]]
    return "\n".join(lines) + "\n"


class Metrics:
    """The file. It is written some seconds after it was, and where the service wakes."""

    def __init__(self, path: Path) -> None:
        self.path, self.written, self.is_told = path, 0.0, False

    def write(self, houses: Mapping[str, House], is_last: bool = False) -> None:
        """A reader finds the old file or the new one. A fault is told once."""
        if not is_last and time.monotonic() - self.written < SECONDS_BETWEEN and self.written:
            return
        self.written = time.monotonic()
        part = self.path.with_name(self.path.name + ".new")
        try:
            part.write_text(text_of(houses, not is_last))
            os.replace(part, self.path)
        except OSError as error:
            if not self.is_told:
                tell(f"sched-jobs: metrics: {self.path}: not written: {error.strerror}")
            self.is_told = True
