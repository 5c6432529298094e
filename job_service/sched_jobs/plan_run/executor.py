"""The program `sched run` behind pipes."""

import contextlib
import subprocess

from sched_jobs.basics import Fault
from sched_jobs.plan_run.traces import Trace

MOST_EVENTS = 2**32 - 1
ANSWERS = {"clock", "start", "finish", "outside", "error"}
SECONDS_TO_END = 1


class Executor:
    """`sched run`, which takes events one at a time. What it answers is the trace."""

    def __init__(self, program: str, plan: str, workers: int, trace: Trace) -> None:
        self.program, self.workers, self.trace = program, workers, trace
        words, pipe = [program, "run", plan, "--workers", str(workers), "--limit", str(MOST_EVENTS)], subprocess.PIPE
        try:
            self.process = subprocess.Popen(words, stdin=pipe, stdout=pipe, encoding="latin-1", start_new_session=True)
        except OSError as error:
            raise Fault(f"program: {program!r} not started: {error.strerror}") from error
        assert self.process.stdin and self.process.stdout
        self.input, self.output = self.process.stdin, self.process.stdout

    def event(self, event: str) -> list[list[str]]:
        """Gives an event. Returns the words of each line that it is answered, its own line last."""
        with contextlib.suppress(BrokenPipeError):
            self.input.write(event + "\n")
            self.input.flush()
        lines: list[str] = []
        while not lines or ANSWERS.isdisjoint(lines[-1].split()[1:2]):
            lines.append(self.output.readline())
            if not lines[-1].endswith("\n"):
                self.lost()
        self.trace.write("".join(lines))
        if "error" in lines[-1].split():
            raise Fault(f"program: {event!r} was answered {lines[-1]!r}")
        return [line.split() for line in lines]

    def lost(self) -> None:
        """The program has ended though more events come, or says what it was not asked."""
        raise Fault(f"program: {self.program!r} ended too early{self.end()}")

    def end(self) -> str:
        """How the program has ended. Its pipe may be closed a little before that."""
        try:
            status = self.process.wait(SECONDS_TO_END)
        except subprocess.TimeoutExpired:
            return ""
        return f", with status {status}" if status >= 0 else f", by signal {-status}"

    def close(self) -> None:
        """Ends the program. The trace is whole now."""
        self.input.close()
        if self.output.read() or self.process.wait():
            self.lost()
        self.trace.keep()

    def abandon(self) -> None:
        """Ends the program, where it still runs."""
        with contextlib.suppress(OSError):
            self.input.close()
        self.process.kill()
        self.process.wait()
