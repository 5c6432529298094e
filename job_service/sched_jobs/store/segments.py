"""What the service keeps beside the executor's journal, in its folder, and how that goes on after a crash.

A *segment* is three files, named by N, the number of lines that the executor had answered as it began:

    jobs-N      all jobs as they stood there, written whole before anything is added to the other two
    records-N   what was asked of the service since, and *notes* on lines: what a line that the executor is told does not say
    trace-N     what the executor answered since

A note names its line by the number that the line will have, and is durable before the executor is told the line. So after a
crash each line that was taken has its note, and a note without a line, which was not taken, is known by its number. The trace is
not synced line by line: what it lost the executor answers again. Each start begins a segment, and so does a size.
"""

import re
from collections.abc import Iterable, Iterator
from dataclasses import dataclass
from pathlib import Path

from sched_jobs.basics import Fault, Json
from sched_jobs.store import lines
from sched_jobs.store.files import Appended, Unfit, content_of, replace, sync_folder

LARGEST = 8 << 20
KEPT = 64 << 20
SYNCED = 1 << 20
KINDS = ("jobs", "records", "trace")
JOBS = re.compile(r"jobs-(\d{16})")
TRACE_LINE = re.compile(rb"\d+ [a-z][ -~]*")


def file_of(folder: Path, kind: str, at: int) -> Path:
    return folder / f"{kind}-{at:016}"


def segments_of(folder: Path) -> list[int]:
    """Where the segments of a folder begin, the last one last."""
    return sorted(int(found[1]) for file in folder.iterdir() if (found := JOBS.fullmatch(file.name)))


def is_own_line(line: str) -> bool:
    """Whether a line of a trace is a call's or an event's own, and not behind that one for a task that it ended."""
    return line.split(" ", 2)[1] != "end"


def answers_of(trace: Iterable[str]) -> Iterator[list[str]]:
    """The lines of a trace, those that answer one line together."""
    answer: list[str] = []
    for line in trace:
        if answer and is_own_line(line):
            yield answer
            answer = []
        answer.append(line)
    if answer:
        yield answer


def whole_trace(content: bytes) -> tuple[list[str], int]:
    """The whole lines that a file of a trace begins with, and how many bytes these are."""
    found, size = [], 0
    for line in content.splitlines(keepends=True):
        if not line.endswith(b"\n") or TRACE_LINE.fullmatch(line[:-1]) is None:
            break
        found.append(line[:-1].decode("ascii"))
        size += len(line)
    return found, size


@dataclass(frozen=True)
class Kept:
    """What a segment holds: the jobs at its begin, the records and the answers since, and the sizes of what is whole of both."""

    at: int
    jobs: Json
    records: list[Json]
    answers: list[list[str]]
    record_bytes: int = 0
    trace_bytes: int = 0


def read_segment(folder: Path, at: int) -> Kept:
    """What a segment holds. The ends of its files may be torn; its jobs may not. The trace is read first: each note stands before what
    its line is answered, also while the segment grows."""
    path = file_of(folder, "jobs", at)
    content = content_of(path)
    try:
        jobs = lines.read(content)
    except lines.NoLine as error:
        raise Unfit(f"{path}: decayed, or none of the service's") from error
    trace, trace_bytes = whole_trace(content_of(file_of(folder, "trace", at)))
    records, record_bytes = lines.whole_front(content_of(file_of(folder, "records", at)))
    return Kept(at, jobs, records, list(answers_of(trace)), record_bytes, trace_bytes)


class Store:
    """The segment that is written. What can't be written of the trace is held, since the executor would have to be asked again."""

    def __init__(self, folder: Path, at: int, jobs: object, may_be_there: bool = False) -> None:
        """Begins a segment, and forgets those for which there is no room. One that is there has no answers, and is begun anew."""
        self.folder, self.at = folder, at
        if at in segments_of(folder) and not may_be_there:
            raise Fault(f"{folder}: a segment begins at line {at} already")
        for kind in ("records", "trace"):
            Appended(file_of(folder, kind, at), 0).close()
        replace(file_of(folder, "jobs", at), lines.written(jobs))
        self.records = Appended(file_of(folder, "records", at))
        self.trace = Appended(file_of(folder, "trace", at))
        self.held, self.synced = b"", 0
        self.forget()

    def forget(self) -> None:
        """Takes away the oldest segments, but for this one and the one before, until the rest is small enough."""
        size = 0
        for place, at in enumerate(reversed(segments_of(self.folder))):
            files = [path for kind in KINDS if (path := file_of(self.folder, kind, at)).exists()]
            size += sum(path.stat().st_size for path in files)
            if place > 1 and size > KEPT:
                for path in files:
                    path.unlink()
        sync_folder(self.folder)

    def keep(self, records: list[Json], is_durable: bool) -> None:
        """Adds records; an Unwritten leaves none of them."""
        self.records.append(b"".join(map(lines.written, records)), is_durable)

    def add_trace(self, answers: list[list[str]]) -> None:
        """Adds what was answered; an Unwritten holds it until later."""
        self.held += "".join(line + "\n" for answer in answers for line in answer).encode()
        self.trace.append(self.held)
        self.held = b""
        if self.trace.size - self.synced >= SYNCED:
            self.trace.sync()
            self.synced = self.trace.size

    def is_full(self) -> bool:
        return self.records.size + self.trace.size > LARGEST and not self.held

    def close(self) -> None:
        self.records.close()
        self.trace.close()

    def next(self, at: int, jobs: object) -> "Store":
        """The segment behind this one."""
        self.trace.sync()
        following = Store(self.folder, at, jobs)
        self.close()
        return following
