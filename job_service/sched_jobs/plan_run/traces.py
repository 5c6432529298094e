"""The file of the trace. Until it is whole it has another name, and no other runner may write it meanwhile."""

import contextlib
import errno
import fcntl
import os
from collections.abc import Iterator
from itertools import count
from typing import TextIO

from sched_jobs.basics import Fault, tell

LOCK, PART = ".lock", ".part"
LOCKING = os.O_RDWR | os.O_CREAT | os.O_CLOEXEC | os.O_NOFOLLOW


def unwritten(path: str, why: str) -> Fault:
    return Fault(f"trace: {path!r} not written: {why}")


def look_at(path: str) -> None:
    """What is no regular file can't be replaced by one, and a part or a lock may be another runner's."""
    if path.endswith((PART, LOCK)):
        raise unwritten(path, f"a name that ends with {PART} or {LOCK} is none of a whole trace")
    if not os.path.basename(path) or os.path.isdir(path):
        raise unwritten(path, os.strerror(errno.EISDIR))
    if os.path.exists(path) and not os.path.isfile(path):
        raise unwritten(path, "it is no regular file")


def is_at(path: str, descriptor: int) -> bool:
    """Whether the file that is open is the one of this name."""
    try:
        return os.path.samestat(os.stat(path, follow_symlinks=False), os.fstat(descriptor))
    except FileNotFoundError:
        return False


def take(descriptor: int, trace: str) -> None:
    """Locks an open file, which nothing but its runner's end gives up."""
    try:
        fcntl.flock(descriptor, fcntl.LOCK_EX | fcntl.LOCK_NB)
    except BlockingIOError as error:
        raise Fault(f"trace: {trace!r} is held by another runner") from error
    except OSError as error:
        raise Fault(f"trace: {trace + LOCK!r} not locked: {error.strerror}") from error


def locked(trace: str) -> int:
    """Opens the lock of a trace and takes it. Who had it before takes its file away, so it is looked at once more."""
    path = trace + LOCK
    while True:
        try:
            descriptor = os.open(path, LOCKING, 0o666)
        except OSError as error:
            raise unwritten(path, error.strerror) from error
        with contextlib.ExitStack() as closing:
            closing.callback(os.close, descriptor)
            take(descriptor, trace)
            if os.fstat(descriptor).st_size:
                raise Fault(f"trace: {path!r} is no lock of a runner: something stands in it")
            if is_at(path, descriptor):
                closing.pop_all()
                return descriptor


def parts(trace: str) -> Iterator[str]:
    """The names that a trace may have until it is whole."""
    yield trace + PART
    yield from (f"{trace}.{number}{PART}" for number in count(2))


def begun(trace: str) -> tuple[str, TextIO]:
    """A new file with the first of these names that no file has."""
    for part in parts(trace):
        try:
            return part, open(part, "x", encoding="latin-1")
        except FileExistsError:
            continue
        except OSError as error:
            raise unwritten(part, error.strerror) from error
    raise AssertionError


class Trace:
    """The trace, which is this runner's alone until it is freed."""

    def __init__(self, path: str) -> None:
        look_at(path)
        self.path, self.lock, self.has_lines = path, path + LOCK, False
        self.held = locked(path)
        try:
            self.part, self.file = begun(path)
        except Fault:
            self.unlock()
            raise
        if self.part != path + PART:
            tell(f"trace: {path + PART!r} is there already, this one is {self.part!r}")

    def write(self, lines: str) -> None:
        """Writes whole lines."""
        self.has_lines = True
        try:
            self.file.write(lines)
            self.file.flush()
        except OSError as error:
            raise unwritten(self.part, error.strerror) from error

    def keep(self) -> None:
        """It is whole, and gets its name."""
        try:
            self.file.close()
            os.replace(self.part, self.path)
        except OSError as error:
            raise unwritten(self.path, error.strerror) from error

    def rest(self) -> str:
        """What a fault leaves of it."""
        return f"; the trace up to then is {self.part!r}" if self.has_lines else ""

    def unlock(self) -> None:
        """Takes the lock's file away while it is locked, so that nobody has one lock and somebody else another."""
        if is_at(self.lock, self.held):
            os.unlink(self.lock)
        os.close(self.held)

    def free(self) -> None:
        """Lets other runners have the trace. A part in which nothing stands is taken away."""
        with contextlib.suppress(OSError):
            self.file.close()
        with contextlib.suppress(OSError):
            if not self.has_lines:
                os.unlink(self.part)
        with contextlib.suppress(OSError):
            self.unlock()
