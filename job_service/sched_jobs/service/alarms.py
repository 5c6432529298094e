"""The command that is run at a failure, and the word to who has started the service that it serves."""

import contextlib
import os
import socket
import subprocess
from functools import partial

from sched_jobs.basics import SECOND, tell
from sched_jobs.service.loop import Loop
from sched_jobs.store.entries import Ended

# So many of these commands are run at a time. Of a failure beyond that a line alone tells.
MOST_AT_ONCE = 8


class Alarms:
    """Runs a command for each run that failed, which finds what failed in its environment."""

    def __init__(self, command: list[str], loop: Loop) -> None:
        self.command, self.loop = command, loop
        self.running: dict[int, subprocess.Popen] = {}

    def run(self, ended: Ended) -> None:
        """Does not wait for the command."""
        if not self.command:
            return
        if len(self.running) >= MOST_AT_ONCE:
            tell(f"sched-jobs: at-failure: left out for {ended.run.name}: {MOST_AT_ONCE} of them are running")
            return
        try:
            environment = os.environ | names_of(ended)
            child = subprocess.Popen(self.command, stdin=subprocess.DEVNULL, env=environment, start_new_session=True)
            descriptor = os.pidfd_open(child.pid)
        except OSError as error:
            tell(f"sched-jobs: at-failure: {self.command[0]!r} not started: {error.strerror}")
            return
        self.running[descriptor] = child
        self.loop.watch(descriptor, partial(self.reap, descriptor))

    def reap(self, descriptor: int) -> None:
        self.loop.unwatch(descriptor)
        os.close(descriptor)
        status = self.running.pop(descriptor).wait()
        if status:
            tell(f"sched-jobs: at-failure: {self.command[0]!r} ended with {status}")

    def ready(self) -> None:
        """Tells systemd, where that waits for it. Jobs do not."""
        path = os.environ.pop("NOTIFY_SOCKET", "")
        if not path:
            return
        with contextlib.suppress(OSError), socket.socket(socket.AF_UNIX, socket.SOCK_DGRAM | socket.SOCK_CLOEXEC) as stream:
            stream.connect("\0" + path[1:] if path.startswith("@") else path)
            stream.sendall(b"READY=1")


def names_of(ended: Ended) -> dict[str, str]:
    """What the command is told of the run."""
    run = ended.run
    return {"SCHED_JOB": run.name, "SCHED_TASK": str(run.task), "SCHED_RUN": str(run.number), "SCHED_CODE": str(ended.code),
            "SCHED_WHY": ended.why, "SCHED_ATTEMPTS": str(ended.attempts),
            "SCHED_SECONDS": f"{(ended.end - run.start) / SECOND:.3f}"}
