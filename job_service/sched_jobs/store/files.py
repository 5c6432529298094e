"""Files that are appended to, or replaced whole, and what it takes until they are durable."""

import contextlib
import errno
import fcntl
import os
from pathlib import Path

from sched_jobs.basics import Fault

NEW = os.O_RDWR | os.O_CREAT | os.O_CLOEXEC | os.O_NOFOLLOW
PRIVATE = 0o600


class InUse(Fault):
    """Another process has a lock."""


class Unfit(Fault):
    """The files of a folder do not fit together."""


class Unwritten(Fault):
    """A file was not written. What it had before stands."""


def unwritten(path: Path, error: OSError) -> Unwritten:
    return Unwritten(f"{path}: not written: {error.strerror}")


def sync_folder(folder: Path) -> None:
    """Makes durable which files a folder has."""
    descriptor = os.open(folder, os.O_RDONLY | os.O_DIRECTORY | os.O_CLOEXEC)
    try:
        os.fsync(descriptor)
    finally:
        os.close(descriptor)


def replace(path: Path, content: bytes) -> None:
    """Writes a file whole: after a crash it is the old one or this one."""
    part = path.with_name(path.name + ".new")
    try:
        with open(os.open(part, NEW | os.O_TRUNC, PRIVATE), "wb") as file:
            file.write(content)
            file.flush()
            os.fsync(file.fileno())
        os.replace(part, path)
        sync_folder(path.parent)
    except OSError as error:
        raise unwritten(path, error) from error


class Appended:
    """A file that grows by whole lines. What a write leaves that failed is taken away again."""

    def __init__(self, path: Path, size: int | None = None) -> None:
        """Opens the file, and cuts it to a size where one is given."""
        self.path = path
        try:
            self.descriptor = os.open(path, NEW, PRIVATE)
            if size is not None:
                os.ftruncate(self.descriptor, size)
            self.size = os.lseek(self.descriptor, 0, os.SEEK_END)
        except OSError as error:
            raise unwritten(path, error) from error

    def append(self, content: bytes, is_durable: bool = False) -> None:
        try:
            done = 0
            while done < len(content):
                done += os.pwrite(self.descriptor, content[done:], self.size + done)
            if is_durable:
                os.fdatasync(self.descriptor)
        except OSError as error:
            with contextlib.suppress(OSError):
                os.ftruncate(self.descriptor, self.size)
            raise unwritten(self.path, error) from error
        self.size += len(content)

    def sync(self) -> None:
        try:
            os.fdatasync(self.descriptor)
        except OSError as error:
            raise unwritten(self.path, error) from error

    def close(self) -> None:
        os.close(self.descriptor)


def locked(path: Path, what: str) -> int:
    """Takes a lock that ends with the process; a Fault where another one has it."""
    try:
        descriptor = os.open(path, NEW, PRIVATE)
    except OSError as error:
        raise unwritten(path, error) from error
    try:
        fcntl.flock(descriptor, fcntl.LOCK_EX | fcntl.LOCK_NB)
    except OSError as error:
        os.close(descriptor)
        if error.errno in (errno.EWOULDBLOCK, errno.EACCES):
            raise InUse(f"{what} is in use") from error
        raise Fault(f"{path}: not locked: {error.strerror}") from error
    return descriptor


def content_of(path: Path) -> bytes:
    """What stands in a file, and nothing where it is not there."""
    try:
        return path.read_bytes()
    except FileNotFoundError:
        return b""
    except OSError as error:
        raise Fault(f"{path}: not read: {error.strerror}") from error
