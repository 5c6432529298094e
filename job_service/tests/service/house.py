"""A service in a folder of its own, what is asked of it, and what has to hold of it whenever it was killed."""

import json
import os
import shutil
import signal
import subprocess
import sys
import tempfile
import time
from collections.abc import Callable, Iterator
from pathlib import Path

from sched_jobs.client import ask
from sched_jobs.basics import Fault
from sched_jobs.store.segments import file_of, segments_of

TOP = Path(__file__).resolve().parents[2]
COMMAND = TOP / "sched-jobs"
STAND_IN = TOP / "tests" / "live_stand_in.py"
SECONDS = 60
Checks = Iterator[tuple[str, bool]]
# What a job does that shows by a line of the file `effects` that it was begun.
SHOWS = 'echo "$SCHED_JOB $SCHED_TASK $SCHED_RUN $SCHED_ATTEMPT" >> {folder}/effects'

# A service in whose process something else runs before.
DRIVEN = """import sys
sys.path.insert(0, {top!r})
{driver}
from sched_jobs.command_line import main
sys.exit(main({words!r}))
"""


def soon(holds: Callable[[], bool], seconds: float = SECONDS) -> bool:
    """Whether this holds before long."""
    end = time.monotonic() + seconds
    while not (held := holds()) and time.monotonic() < end:
        time.sleep(0.02)
    return held


def keeps_a_journal(program: str) -> bool:
    """Whether the program has `live --journal` itself."""
    return "--journal" in subprocess.run([program, "live", "--help"], capture_output=True, text=True).stdout


class House:
    """A service, its folder, and what it has told. A driver is Python that runs before the service does, in its process."""

    def __init__(self, program: str, workers: int = 3) -> None:
        self.program, self.workers = program, workers
        self.folder = Path(tempfile.mkdtemp(prefix="jobs-"))
        self.state = self.folder / "state"
        self.environment = os.environ | {"SCHED_PLAIN": program, "SCHED_JOBS_STATE": str(self.state)}
        self.served: subprocess.Popen | None = None
        self.files: list[object] = []

    def __enter__(self) -> "House":
        return self

    def __exit__(self, *_: object) -> None:
        self.kill()
        self.end_jobs()
        for file in self.files:
            file.close()
        shutil.rmtree(self.folder, ignore_errors=True)

    def end_jobs(self) -> None:
        """Ends what jobs have started, by the marks."""
        for mark in (self.state / "runs").glob("*") if (self.state / "runs").exists() else []:
            words = mark.read_text().split()
            if words and Path(f"/proc/{words[0]}").exists() and len(words) == 2:
                with_group = int(words[0])
                try:
                    os.killpg(with_group, signal.SIGKILL)
                except ProcessLookupError:
                    pass

    # ---- the service

    def serve(self, *words: str, driver: str = "", waits: bool = True, **environment: str) -> bool:
        """Begins a service. Answers whether it serves before long."""
        engine = self.program if keeps_a_journal(self.program) else str(STAND_IN)
        serve = ["serve", "--workers", str(self.workers), "--sched", engine, *words]
        begin = DRIVEN.format(top=str(TOP), driver=driver, words=serve)
        told = open(self.folder / "told", "ab")
        self.files.append(told)
        self.served = subprocess.Popen(
            [sys.executable, *(["-c", begin] if driver else [str(COMMAND), *serve])], stdin=subprocess.DEVNULL, stdout=told,
            stderr=told, env=self.environment | environment, cwd=self.folder)
        return not waits or soon(lambda: self.served.poll() is not None or self.answers())

    def answers(self) -> bool:
        try:
            self.ask("status")
        except Fault:
            return False
        return True

    def kill(self) -> None:
        if self.served is not None and self.served.poll() is None:
            self.served.kill()
        if self.served is not None:
            self.served.wait()

    def executor(self) -> int:
        """The process of the executor."""
        children = Path(f"/proc/{self.served.pid}/task/{self.served.pid}/children").read_text().split()
        return next(int(child) for child in children if "--journal" in Path(f"/proc/{child}/cmdline").read_text())

    def status(self) -> int | None:
        """The status of the service once it has ended, and none where it does not."""
        try:
            return self.served.wait(SECONDS)
        except subprocess.TimeoutExpired:
            return None

    def told(self) -> str:
        return (self.folder / "told").read_text(errors="replace")

    # ---- what is asked

    def ask(self, what: str, **words: object) -> dict:
        return ask(self.state, {"do": what, **words})

    def refusal(self, what: str, **words: object) -> str:
        """Why something is refused."""
        try:
            self.ask(what, **words)
        except Fault as fault:
            return str(fault)
        return ""

    def add(self, name: str, script: str, **keys: object) -> dict:
        """Adds a job whose command a shell reads."""
        command = ["sh", "-c", script.replace("{folder}", str(self.folder))]
        return self.ask("add", name=name, table={"command": command, "directory": str(self.folder)} | keys)["job"]

    def run(self, *words: str) -> subprocess.CompletedProcess:
        """The command with these words."""
        return subprocess.run([sys.executable, str(COMMAND), *words], capture_output=True, text=True, env=self.environment,
                              cwd=self.folder, stdin=subprocess.DEVNULL, timeout=SECONDS)

    def job(self, name: str) -> dict:
        return self.ask("show", name=name)["job"]

    def jobs(self) -> dict[str, dict]:
        return {job["name"]: job for job in self.ask("list", all=True)["jobs"]}

    def state_of(self, name: str) -> str:
        return self.job(name)["state"]

    def is_over(self, *names: str) -> bool:
        jobs = self.jobs()
        return all(name in jobs and jobs[name]["state"] not in ("waits", "runs") for name in names)

    def file(self, name: str) -> list[str]:
        path = self.folder / name
        return path.read_text().splitlines() if path.exists() else []

    def effects(self, name: str) -> list[list[str]]:
        """What the runs of a job have shown: task, run and attempt of each."""
        return [line.split()[1:] for line in self.file("effects") if line.split()[0] == name]

    # ---- what has to hold

    def trace(self) -> list[str]:
        """What the executor has answered, from the begin on, as far as the segments have it. Between two segments one has to stand
        where the other began."""
        found = []
        for at in segments_of(self.state):
            found += ["?"] * (at - len(found)) + file_of(self.state, "trace", at).read_text().splitlines()
        return found

    def journal(self) -> bytes:
        return (self.state / "journal" / "lines").read_bytes()

    def replayed(self) -> list[str]:
        """What the program answers to the lines of the journal, told anew."""
        words = [self.program, "live", "--workers", str(self.workers)]
        return subprocess.run(words, input=self.journal(), capture_output=True).stdout.decode().splitlines()

    def holds(self) -> Checks:
        """What has to hold once the service has ended, however often it was killed before."""
        trace = self.trace()
        if not keeps_a_journal(self.program):
            replayed = self.replayed()
            same = len(trace) == len(replayed) and all(one in ("?", other) for one, other in zip(trace, replayed))
            yield "the trace is what the journal's lines are answered", same
        ends = [tuple(line.split()[4:7:2]) for line in trace if line.split()[1:2] == ["finish"]]
        yield "no run has two ends", len(ends) == len(set(ends))
        begun = [tuple(line.split()) for line in self.file("effects")]
        yield "no attempt was begun twice", len(begun) == len(set(begun))
        yield "no mark is left of what has ended", not [mark for mark in os.listdir(self.state / "runs")] or "runs" in json.dumps(
            [line for line in trace if " start " in line])


def stopped(house: House) -> bool:
    """Stops the service once all has ended."""
    house.ask("stop")
    return house.status() == 0
