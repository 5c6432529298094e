"""The executor: the program `sched live --journal` behind pipes. What it has answered is durable."""

import contextlib
import os
import re
import select
import subprocess
import time
from pathlib import Path

from sched_jobs.basics import Fault, tell
from sched_jobs.store.files import InUse, Unfit
from sched_jobs.store.segments import is_own_line

# So many lines, and what answers them, fit into the pipes at once.
MOST_AT_ONCE = 600
SECONDS_TO_BEGIN, SECONDS_TO_END = 120, 5
IN_USE = "sched: journal in use"
RESUMED = re.compile(r"resumed at (\d+) lines")
RUNNING = re.compile(r"running (\d+) task (\d+) run (\d+) due (\d+)")


class Engine:
    """The program, from where its journal stands. `lines` counts those that were taken; `answered` are the answers behind those that
    the caller has, and `running` is what it says of the runs under way: worker, task, run and due moment of each."""

    def __init__(self, program: str, journal: Path, workers: int, has_answers: int) -> None:
        words = [program, "live", "--workers", str(workers), "--journal", str(journal), "--answers-from", str(has_answers)]
        pipe = subprocess.PIPE
        try:
            self.process = subprocess.Popen(words, stdin=pipe, stdout=pipe, stderr=pipe, bufsize=0, start_new_session=True)
        except OSError as error:
            raise Fault(f"program: {program!r} not started: {error.strerror}") from error
        assert self.process.stdin and self.process.stdout and self.process.stderr
        self.input, self.output, self.told = self.process.stdin, self.process.stdout, self.process.stderr
        self.program, self.has_answers = program, has_answers
        self.said, self.rest, self.has_begun = "", b"", False
        self.answers: list[list[str]] = []
        try:
            self.begin()
            self.has_begun = True
        except BaseException:
            self.abandon()
            raise

    def resume(self, asked: int) -> None:
        """Waits for where the program goes on, and for the answers to what was not answered before, and to so many lines behind it."""
        limit = time.monotonic() + SECONDS_TO_BEGIN
        while not (found := RESUMED.search(self.said)):
            self.wait_for_any(limit)
        self.lines = int(found[1])
        behind = self.lines - self.has_answers
        if behind < 0:
            raise Unfit(f"the journal has {self.lines} lines, and {self.has_answers} were answered")
        while len(self.answers) < behind + asked:
            self.wait_for_any(limit)
        self.answered = self.taken(behind + asked)

    def begin(self) -> None:
        """Asks something, so that what stands before the answer is all that was told of the start."""
        self.write("call ask\n")
        self.resume(1)
        self.lines += 1
        self.hear()
        self.running = {tuple(map(int, words)) for words in RUNNING.findall(self.said)}

    def wait_for_any(self, limit: float) -> None:
        """Reads what is told and what is answered, in whatever order it comes."""
        ready, _, _ = select.select([self.told, self.output], [], [], max(0, limit - time.monotonic()))
        if not ready:
            raise Fault(f"program: {self.program!r} does not answer")
        self.hear()
        if self.output in ready:
            self.read()

    def hear(self) -> None:
        """Reads what is told on standard error. Lines that are none of the start's are passed on."""
        while select.select([self.told], [], [], 0)[0]:
            piece = os.read(self.told.fileno(), 65_536).decode("latin-1")
            self.said = piece if self.has_begun else self.said + piece
            if not piece:
                self.lost()
            if self.has_begun and (told := [line for line in piece.splitlines() if RUNNING.match(line) is None]):
                tell("\n".join(told))

    def write(self, text: str) -> None:
        """Tells lines. That the program has ended is seen where it is to answer."""
        left = text.encode()
        with contextlib.suppress(BrokenPipeError):
            while left:
                left = left[os.write(self.input.fileno(), left):]

    def read(self) -> None:
        """Reads answers. No line of the service ends a task, so each is one line, and whole as it comes."""
        piece = os.read(self.output.fileno(), 65_536)
        if not piece:
            self.lost()
        *whole, self.rest = (self.rest + piece).split(b"\n")
        for line in map(bytes.decode, whole):
            if is_own_line(line):
                self.answers.append([])
            self.answers[-1].append(line)

    def taken(self, count: int) -> list[list[str]]:
        """The answers of so many lines, which are all that have come."""
        while len(self.answers) < count:
            self.read()
        if len(self.answers) > count:
            raise Fault(f"program: {self.program!r} answers more than it was told")
        found, self.answers = self.answers, []
        return found

    def exchange(self, lines: list[str]) -> list[list[str]]:
        """Tells lines, and gives back what answers each."""
        found = []
        for at in range(0, len(lines), MOST_AT_ONCE):
            some = lines[at:at + MOST_AT_ONCE]
            self.write("".join(line + "\n" for line in some))
            found += self.taken(len(some))
        self.lines += len(lines)
        return found

    def lost(self) -> None:
        """The program has ended though more is wanted of it."""
        with contextlib.suppress(subprocess.TimeoutExpired):
            self.process.wait(SECONDS_TO_END)
        rest = b""
        while select.select([self.told], [], [], 0)[0] and (piece := os.read(self.told.fileno(), 65_536)):
            rest += piece
        said = (self.said + rest.decode("latin-1")).strip().splitlines()
        if IN_USE in said:
            raise InUse("the journal is in use")
        status = self.process.returncode
        how = "" if status is None else f", with status {status}" if status >= 0 else f", by signal {-status}"
        why = f": {said[-1]}" if said and not RUNNING.match(said[-1]) and not RESUMED.match(said[-1]) else ""
        raise Fault(f"program: {self.program!r} ended too early{how}{why}")

    def close(self) -> None:
        """Ends the program, which keeps what it was told."""
        self.input.close()
        if self.process.wait(SECONDS_TO_BEGIN):
            tell(f"sched-jobs: program: {self.program!r} ended with status {self.process.returncode}")

    def abandon(self) -> None:
        """Ends the program, where it still runs."""
        with contextlib.suppress(OSError):
            self.input.close()
        self.process.kill()
        self.process.wait()


class ReplicaEngine(Engine):
    """An executor that is told the lines of a log, and no other one: so nothing is asked at its begin, and journals of one log have
    the same bytes."""

    def begin(self) -> None:
        self.resume(0)


def opened(program: str, journal: Path, workers: int, has_answers: int, kind: type[Engine] = Engine) -> Engine:
    """The executor. One whose service was killed has its journal until it has seen that."""
    limit = time.monotonic() + SECONDS_TO_END
    while True:
        try:
            return kind(program, journal, workers, has_answers)
        except InUse:
            if time.monotonic() > limit:
                raise
            time.sleep(0.05)
