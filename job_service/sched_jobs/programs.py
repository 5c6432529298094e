"""The program `sched`, the number of its workers, and the signals that end who runs it."""

import argparse
import errno
import os
import shutil
import signal
from pathlib import Path

from sched_jobs.basics import Fault

BUILT = Path(os.path.normpath(Path(__file__).resolve().parent / "../../crates/sched/out/sched"))
MOST_WORKERS = 64


def worker_count(text: str) -> int:
    if not (text.isascii() and text.isdigit() and 1 <= int(text) <= MOST_WORKERS):
        raise argparse.ArgumentTypeError(f"{text!r} is not 1 to {MOST_WORKERS}")
    return int(text)


def program_named(name: str | None) -> str:
    """The path of the program."""
    sought = name or (str(BUILT) if BUILT.exists() else "sched")
    program = shutil.which(sought)
    if program is None:
        raise Fault(f"program: {sought!r} {why_not_found(sought)}")
    return program


def why_not_found(sought: str) -> str:
    """Why there is no such program that may be run."""
    if not os.path.dirname(sought):
        return "not found: no folder of the PATH has it"
    try:
        os.stat(sought)
    except OSError as error:
        return f"not found: {error.strerror}"
    return f"not started: {os.strerror(errno.EISDIR if os.path.isdir(sought) else errno.EACCES)}"


def wakes_by_signals() -> int:
    """Makes SIGTERM and SIGINT end no sleep but by what can be read here: no signal is missed before a sleep begins. The
    status of a job that has ended is kept for the runner, also where it was started by one who ignores such ends."""
    reading, writing = os.pipe()
    os.set_blocking(writing, False)
    signal.set_wakeup_fd(writing, warn_on_full_buffer=False)
    signal.signal(signal.SIGCHLD, signal.SIG_DFL)
    for number in (signal.SIGTERM, signal.SIGINT):
        signal.signal(number, lambda *_: None)
    return reading
