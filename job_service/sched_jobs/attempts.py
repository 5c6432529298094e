"""The runs that are under way: each has an attempt, or waits for the next one."""

from collections.abc import Callable
from dataclasses import dataclass
from functools import partial
from typing import Protocol

from sched_jobs.basics import SECOND, File
from sched_jobs.jobs import Job
from sched_jobs.processes import NOT_STARTED, Group, Lost, NotStarted, Scarce

FIRST_DELAY, LONGEST_DELAY = SECOND // 100, SECOND


@dataclass
class Run:
    """A run of a task, with its last attempt. Moments are nanoseconds since what its house counts from."""

    worker: int
    task: int
    number: int
    due: int
    start: int
    attempt: int = 1
    began: int = 0
    code: int = NOT_STARTED
    process: Group | None = None
    tries_at: int | None = None
    delay: int = 0
    has_waited: bool = False
    is_cancelled: bool = False
    is_lost: bool = False


class House(Protocol):
    """Who gives out runs, and is told their ends. `is_stopping` says that no further attempt is made."""

    is_stopping: bool

    def now(self) -> int: ...
    def name(self, run: Run) -> str: ...
    def job(self, run: Run) -> Job: ...
    def watch(self, file: File, call: Callable[[], None]) -> None: ...
    def unwatch(self, file: File | None) -> None: ...
    def process(self, run: Run, job: Job, header: bytes) -> Group: ...
    def finish(self, run: Run) -> None: ...
    def tell(self, now: int, text: str) -> None: ...
    def complain(self, text: str) -> None: ...
    def lose(self, run: Run) -> None: ...


class Attempts:
    """The runs of a house, by their workers."""

    def __init__(self, house: House) -> None:
        self.house = house
        self.running: dict[int, Run] = {}

    def processes(self) -> list[Group]:
        """Those of the attempts that are under way."""
        return [run.process for run in self.running.values() if run.process is not None]

    def moments(self, is_begun: bool = True) -> list[int | None]:
        """When there is something to do, where no job ends before."""
        waiting = [run for run in self.running.values() if is_begun or run.process is not None]
        return [*(run.tries_at for run in waiting), *(process.ends_at for process in self.processes())]

    def title(self, run: Run, with_attempt: bool = False) -> str:
        attempt = f" attempt {run.attempt}" if with_attempt else ""
        return f"{self.house.name(run)} task {run.task} run {run.number}{attempt}"

    def start(self, run: Run) -> None:
        """Begins a run that was given out."""
        self.running[run.worker] = run
        self.begin(run)

    def begin(self, run: Run) -> None:
        """Begins an attempt of a run."""
        job, run.began = self.house.job(run), self.house.now()
        header = f"==> {self.title(run, with_attempt=job.retries > 0)} <==\n"
        try:
            run.process = self.house.process(run, job, header.encode())
        except Scarce as lack:
            self.put_off(run, lack)
        except NotStarted as error:
            self.house.complain(f"{self.house.name(run)} not started: {error}")
            self.end_attempt(run, error.code)
        else:
            run.delay = 0
            self.watch_end(run)

    def watch_end(self, run: Run) -> None:
        """From now on the end of the run's process is seen."""
        assert run.process is not None
        try:
            self.house.watch(run.process.descriptor(), partial(self.reap, run))
        except Scarce as lack:
            self.put_off(run, lack)
        else:
            run.delay = 0

    def put_off(self, run: Run, lack: Scarce) -> None:
        """Has a run wait for what there is too little of: a while, and longer each time."""
        if not run.has_waited:
            self.house.tell(self.house.now(), f"{self.title(run)} waits: {lack}")
        run.has_waited = True
        run.delay = min(2 * run.delay or FIRST_DELAY, LONGEST_DELAY)
        run.tries_at = self.house.now() + run.delay

    def try_again(self, is_begun: bool = True) -> None:
        """Goes on with what has waited long enough: unless nothing is begun any more, with further attempts too."""
        for run in list(self.running.values()):
            if run.tries_at is None or run.tries_at > self.house.now() or run.process is None and not is_begun:
                continue
            run.tries_at = None
            if run.process is not None:
                self.watch_end(run)
            elif run.is_cancelled:
                self.finish(run)
            else:
                self.begin(run)

    def note_cancelled(self, task: int) -> None:
        """A run of the task that is under way has no further attempt, and ends where none is under way. Where one is, it ends
        if its job says so."""
        for run in self.running.values():
            if run.task != task:
                continue
            run.is_cancelled = True
            if run.process is None:
                run.tries_at = self.house.now()
            elif self.house.job(run).ends_on_cancel:
                run.process.ask_to_end(self.house.now())

    def end_due(self) -> None:
        """Ends jobs that run past their timeout, or past the while that they have after SIGTERM."""
        for process in self.processes():
            process.end_if_due(self.house.now())

    def reap(self, run: Run) -> None:
        """A job has ended."""
        assert run.process is not None
        self.house.unwatch(run.process.pidfd)
        try:
            code, run.process = run.process.end(), None
        except Lost:
            run.process = None
            self.house.lose(run)
        except Scarce as lack:
            run.process = None
            self.put_off(run, lack)
        else:
            self.end_attempt(run, code)

    def lose(self, run: Run, code: int, is_tried_again: bool) -> None:
        """Of an attempt nobody knows how it ended: there is another one, or the run ends with a code."""
        if is_tried_again and not run.is_cancelled:
            run.attempt += 1
            run.tries_at = self.house.now()
        else:
            run.code, run.is_lost = code, True
            self.finish(run)

    def end_attempt(self, run: Run, code: int) -> None:
        """Ends an attempt. If it failed there is another one after a pause, if one is left and still wanted."""
        run.code, job = code, self.house.job(run)
        if not code or run.attempt > job.retries or run.is_cancelled or self.house.is_stopping:
            self.finish(run)
            return
        now = self.house.now()
        took, pause = (now - run.began) / 1e6, job.pause / SECOND
        self.house.tell(now, f"{self.title(run, with_attempt=True)}: failed {code} in {took:.1f} ms, again in {pause:.1f} s")
        run.attempt += 1
        run.tries_at = now + job.pause

    def finish(self, run: Run) -> None:
        """Ends a run."""
        del self.running[run.worker]
        self.house.finish(run)

    def finish_waiting(self) -> None:
        """Ends each run of which no attempt is under way."""
        for run in [run for run in self.running.values() if run.process is None]:
            self.finish(run)

    def end_running(self) -> None:
        """Ends what runs, as at a timeout, whatever its job says of a cancel."""
        for process in self.processes():
            process.ask_to_end(self.house.now())
