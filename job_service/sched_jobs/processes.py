"""The process of a job: how it is started, how it is watched, and how it ends."""

import contextlib
import errno
import os
import signal
import subprocess
from functools import partial

from sched_jobs.basics import SECOND
from sched_jobs.jobs import Job

GRACE = SECOND
HUNG, NOT_STARTED, NOT_FOUND, SIGNALLED = 124, 126, 127, 128
SCARCE = {errno.EAGAIN, errno.EMFILE, errno.ENFILE}
APPENDING = os.O_WRONLY | os.O_APPEND | os.O_CREAT | os.O_CLOEXEC | os.O_NOCTTY | os.O_NONBLOCK


class Scarce(Exception):
    """There are too few descriptors or processes now."""


class Lost(Exception):
    """A process has ended, and nobody knows how."""


class NotStarted(Exception):
    """What keeps a job from being started, and the code of that."""

    def __init__(self, text: str, code: int = NOT_STARTED) -> None:
        super().__init__(text)
        self.code = code


def refusal(error: OSError, place: str = "", code: int = NOT_STARTED) -> Scarce | NotStarted:
    """What it means for a job that the system answered this."""
    return Scarce(error.strerror) if error.errno in SCARCE else NotStarted(place + error.strerror, code)


def opened(output: bytes) -> int:
    """Opens a file that is appended to. It does not wait for who reads a pipe, since that would hold up all jobs."""
    try:
        return os.open(output, APPENDING, 0o666)
    except OSError as error:
        raise refusal(error, f"output {os.fsdecode(output)!r}: ") from error


def put_header(header: bytes) -> None:
    """Writes a header to standard output, behind an empty line where something stands there. The job's own writes may wait."""
    os.write(1, (b"\n" if os.fstat(1).st_size else b"") + header)
    os.set_blocking(1, True)


def spawned(job: Job, output: int | None, header: bytes) -> subprocess.Popen:
    """Starts the command. The new process writes the header itself, so it stands right before what the job writes, also
    where other jobs write into the file, and once, also where there had to be a second try."""
    return subprocess.Popen(
        job.command, stdin=subprocess.DEVNULL, stdout=output, stderr=output, start_new_session=True, cwd=job.directory,
        env={**os.environb, **job.environment} if job.environment else None,
        preexec_fn=None if output is None else partial(put_header, header),
    )


def started(job: Job, header: bytes) -> subprocess.Popen:
    """Starts the job, or raises what keeps it from that."""
    output = None if job.output is None else opened(job.output)
    try:
        return spawned(job, output, header)
    except subprocess.SubprocessError as error:
        raise NotStarted(f"output {os.fsdecode(job.output or b'')!r}: not written") from error
    except OSError as error:
        if job.directory is not None and error.filename == job.directory:
            raise refusal(error, f"directory {os.fsdecode(job.directory)!r}: ") from error
        code = NOT_FOUND if isinstance(error, FileNotFoundError) else NOT_STARTED
        raise refusal(error, f"{os.fsdecode(job.command[0])!r}: ", code) from error
    finally:
        if output is not None:
            os.close(output)


class Group:
    """A process group of a job, by the number of its first process, and how it is ended. It is asked to end once."""

    def __init__(self, pid: int, ends_at: int | None) -> None:
        self.pid, self.ends_at = pid, ends_at
        self.is_asked = self.is_hung = False
        self.pidfd: int | None = None

    def descriptor(self) -> int:
        """Opens what can be read once the process has ended."""
        try:
            self.pidfd = os.pidfd_open(self.pid)
        except OSError as error:
            if error.errno in SCARCE:
                raise Scarce(error.strerror) from error
            raise
        return self.pidfd

    def is_running(self) -> bool:
        raise NotImplementedError

    def signal_all(self, number: signal.Signals) -> None:
        """Sends a signal to the process group."""
        with contextlib.suppress(ProcessLookupError, PermissionError):
            os.killpg(self.pid, number)

    def ask_to_end(self, now: int) -> None:
        """Ends the job, where it still runs: by SIGTERM, and a while later by SIGKILL."""
        if not self.is_asked and self.is_running():
            self.signal_all(signal.SIGTERM)
            self.is_asked, self.ends_at = True, now + GRACE

    def end_if_due(self, now: int) -> None:
        """Ends the job where it runs past its timeout, or past the while that it has after SIGTERM."""
        if self.ends_at is None or self.ends_at > now:
            return
        self.ends_at = None
        if self.is_asked:
            self.signal_all(signal.SIGKILL)
        else:
            self.ask_to_end(now)
            self.is_hung = self.is_asked

    def end(self) -> int:
        """Takes the end of a process that has ended, and answers its code."""
        raise NotImplementedError

    def kill(self) -> None:
        """Ends it at once, with what it has started."""
        self.signal_all(signal.SIGKILL)

    def forget_descriptor(self) -> None:
        if self.pidfd is not None:
            os.close(self.pidfd)


class Process(Group):
    """A job's process, the first one of a group of its own. It is not waited for before its end is taken, so the number is
    its own until then."""

    def __init__(self, job: Job, header: bytes, now: int) -> None:
        self.child = started(job, header)
        super().__init__(self.child.pid, None if job.timeout is None else now + job.timeout)

    def is_running(self) -> bool:
        return os.waitid(os.P_PID, self.child.pid, os.WEXITED | os.WNOHANG | os.WNOWAIT) is None

    def end(self) -> int:
        """If it was asked to end, what it has started ends too."""
        if self.is_asked:
            self.signal_all(signal.SIGKILL)
        status = self.child.wait()
        self.forget_descriptor()
        return HUNG if self.is_hung else status if status >= 0 else SIGNALLED - status

    def kill(self) -> None:
        self.signal_all(signal.SIGKILL)
        self.child.wait()
