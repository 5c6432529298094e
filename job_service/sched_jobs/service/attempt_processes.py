"""Processes of the service's jobs: those that it starts, and those that it finds under way."""

import contextlib
import os
import select
import signal
from dataclasses import replace
from pathlib import Path

from sched_jobs.basics import SECOND
from sched_jobs.jobs import Job
from sched_jobs.processes import HUNG, NOT_FOUND, SCARCE, Group, Lost, NotStarted, Process, Scarce
from sched_jobs.service.clocks import steady_clock
from sched_jobs.service.marks import LOST, Mark, read_mark, wrapped

TICK = SECOND // os.sysconf("SC_CLK_TCK")


def program_of(job: Job) -> bytes:
    """The program of a job, sought as the system does, or a NotStarted."""
    word, folder = job.command[0], job.directory or b"."
    if b"/" in word:
        places = [os.path.join(folder, word)]
    else:
        path = job.environment.get(b"PATH") or os.environb.get(b"PATH") or os.fsencode(os.defpath)
        places = [os.path.join(folder, place, word) for place in path.split(b":")]
    there = [place for place in places if os.path.exists(place)]
    for place in there:
        if os.path.isfile(place) and os.access(place, os.X_OK):
            return place
    name = os.fsdecode(word)
    raise NotStarted(f"{name!r}: Permission denied") if there else NotStarted(f"{name!r}: No such file or directory", NOT_FOUND)


class MarkedProcess(Process):
    """A process that makes its mark."""

    def __init__(self, job: Job, header: bytes, now: int, mark: Path) -> None:
        if job.directory is not None and not os.path.isdir(job.directory):
            raise NotStarted(f"directory {os.fsdecode(job.directory)!r}: No such directory")
        command = wrapped(mark, [program_of(job), *job.command[1:]])
        super().__init__(replace(job, command=command), header, now)
        self.mark = mark

    def end(self) -> int:
        """A shell that could not make its mark has begun nothing. Another one has, or the attempt is made again."""
        code = super().end()
        found = read_mark(self.mark) if code == LOST else None
        if code != LOST or found is not None and found.process == self.pid:
            return code
        if found is None:
            self.mark.unlink(missing_ok=True)
        raise Scarce("its mark is not written" if found is None else "it was begun before")


def readable() -> int:
    """A descriptor that can be read."""
    reading, writing = os.pipe()
    os.close(writing)
    return reading


class FoundProcess(Group):
    """A process that a service before this one has started, as its mark says."""

    def __init__(self, path: Path, mark: Mark, timeout: int | None, now: int) -> None:
        begun = now - max(0, steady_clock() - mark.start * TICK)
        super().__init__(mark.process, None if timeout is None else begun + timeout)
        self.path, self.mark = path, mark

    def descriptor(self) -> int:
        """Of one that is not there it can be read at once."""
        try:
            found = os.pidfd_open(self.pid)
        except ProcessLookupError:
            found = readable()
        except OSError as error:
            if error.errno in SCARCE:
                raise Scarce(error.strerror) from error
            raise
        if not self.mark.is_under_way():
            os.close(found)
            found = readable()
        self.pidfd = found
        return found

    def is_running(self) -> bool:
        if self.pidfd is not None and select.select([self.pidfd], [], [], 0)[0]:
            return False
        return self.mark.is_under_way()

    def signal_all(self, number: signal.Signals) -> None:
        """The number may be another's, where its process is not there."""
        if self.mark.is_under_way():
            with contextlib.suppress(ProcessLookupError, PermissionError):
                os.killpg(self.pid, number)

    def end(self) -> int:
        self.forget_descriptor()
        found = read_mark(self.path)
        if self.is_hung:
            return HUNG
        if found is None or found.code is None:
            raise Lost
        return found.code
