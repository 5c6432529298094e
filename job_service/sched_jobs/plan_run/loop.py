"""The loop between the clock, the program and the jobs."""

import os
import selectors
import sys
import time
from collections import deque
from collections.abc import Callable

from sched_jobs.attempts import Attempts, Run
from sched_jobs.basics import SECOND, Fault, File, tell
from sched_jobs.jobs import Job
from sched_jobs.plan_run.executor import Executor
from sched_jobs.plan_run.start import Start
from sched_jobs.processes import Process

MOST_INPUT_BYTES = 64
LONGEST_SLEEP_S = 86_400.0
TOGETHER = SECOND // 10


class Runner:
    """It sleeps until there is something to do."""

    def __init__(self, executor: Executor, names: list[str], calls: deque[int], jobs: dict[str, Job], signals: int) -> None:
        self.executor, self.names, self.calls, self.jobs, self.signals = executor, names, calls, jobs, signals
        self.idle = set(range(executor.workers))
        self.waiting: dict[int, int] = {}
        self.attempts = Attempts(self)
        self.runs = self.failed = self.refused = 0
        self.is_stopping, self.stopped_at = False, 0
        self.rest = b""
        self.origin: int | None = None
        self.selector = selectors.PollSelector()
        self.watch(signals, self.obey_signals)
        self.watch(executor.output, executor.lost)

    def watch(self, file: File, call: Callable[[], None]) -> None:
        """From now on this is called when there is something to read."""
        self.selector.register(file, selectors.EVENT_READ, call)

    def unwatch(self, file: File | None) -> None:
        if file is not None:
            self.selector.unregister(file)

    def sleep(self, seconds: float) -> bool:
        """Sleeps so long at most, and does what comes. Answers whether work is still taken."""
        for key, _ in self.selector.select(seconds):
            key.data()
        return not self.is_stopping

    # ---- the plan

    def run(self, start: Start | None) -> bool:
        """Runs the plan to its end, from a moment of the wall clock on if there is one. Answers whether it was begun."""
        begun = None if start is None else start.wait(self.sleep)
        if start is not None and begun is None:
            return False
        self.event("clock 0")  # the program is ready once it has answered
        self.origin = time.monotonic_ns() if begun is None else begun
        if sys.stdin is not None:
            self.watch(0, self.read_input)
        while not self.is_over():
            self.sleep(self.seconds_to_sleep())
            self.attempts.end_due()
            self.attempts.try_again()
            self.take_due()
        return True

    def now(self) -> int:
        return time.monotonic_ns() - (self.origin or 0)

    def is_over(self) -> bool:
        return not self.attempts.running and (self.is_stopping or not (self.calls or self.waiting))

    def next_due(self) -> int | None:
        """The moment of the next call of the plan, or at which a task is due next if a worker is idle."""
        if self.is_stopping:
            return None
        moments = list(self.waiting.values()) if self.idle else []
        return min(moments + [self.calls[0]] if self.calls else moments, default=None)

    def seconds_to_sleep(self) -> float:
        """How long there is nothing to do, where no job ends, no line is read and no signal comes."""
        moments = [self.next_due(), *self.attempts.moments()]
        seconds = [(moment - self.now()) / SECOND for moment in moments if moment is not None]
        return min([*seconds, LONGEST_SLEEP_S])

    def event(self, event: str) -> list[str]:
        """Gives an event, and notes which tasks wait from then on. Returns the words of the event's own line."""
        answers = self.executor.event(event)
        for words in answers:
            match words[1:]:
                case ["submit", task, _, "due", due] | ["finish", _, "task", task, "run", _, "again", "due", due]:
                    self.waiting[int(task)] = int(due)
                case ["refuse", task, why]:
                    self.refused += 1
                    self.tell(int(words[0]), f"{self.names[int(task)]} task {task}: refused {why}")
                case ["cancel" | "outside", task, "yes"]:
                    self.waiting.pop(int(task), None)
                    self.attempts.note_cancelled(int(task))
                case ["end", task] | ["start", _, "task", task, *_]:
                    self.waiting.pop(int(task), None)
        return answers[-1]

    def tick(self) -> int:
        """Gives the clock, which makes all calls of the plan up to now."""
        now = self.now()
        self.event(f"clock {now}")
        while self.calls and self.calls[0] <= now:
            self.calls.popleft()
        return now

    def take_due(self) -> None:
        """Makes the calls that are reached, and starts what is due while a worker is idle."""
        while (moment := self.next_due()) is not None and moment <= self.now():
            now = self.tick()
            if self.idle and min(self.waiting.values(), default=now + 1) <= now:
                self.start()

    # ---- runs

    def start(self) -> None:
        """Starts the task that was due first."""
        words = self.event(f"start {min(self.idle)}")
        if "task" not in words:
            raise Fault(f"program: a task is due, and it answers {' '.join(words)!r}")
        worker, task, number, due, moment = (int(words[place]) for place in (2, 4, 6, 8, 0))
        run = Run(worker, task, number, due, moment)
        self.idle.remove(run.worker)
        self.attempts.start(run)

    def name(self, run: Run) -> str:
        return self.names[run.task]

    def job(self, run: Run) -> Job:
        return self.jobs[self.names[run.task]]

    def process(self, run: Run, job: Job, header: bytes) -> Process:
        """Starts an attempt."""
        return Process(job, header, run.began)

    def lose(self, run: Run) -> None:
        """A runner waits for its own processes alone, and sees how each ends."""
        raise AssertionError(run)

    def finish(self, run: Run) -> None:
        """Gives the end of a run, and tells it."""
        now, code = self.tick(), run.code
        words = self.event(f"finish {run.worker} {'fail' if code and not self.job(run).goes_on else 'ok'} {code}")
        self.idle.add(run.worker)
        self.runs, self.failed = self.runs + 1, self.failed + (code != 0)
        end = (f"failed {code}" if code else "ok") + (", dropped" if "dropped" in words else "")
        took, late = (now - run.start) / 1e6, (run.start - run.due) / 1e6
        self.tell(now, f"{self.attempts.title(run)}: {end} in {took:.1f} ms, {late:.1f} ms late")

    def tell(self, now: int, text: str) -> None:
        tell(f"{now / SECOND:.3f} s {text}")

    def complain(self, text: str) -> None:
        tell(f"runner: {text}")

    # ---- what comes from outside

    def read_input(self) -> None:
        """Reads lines of standard input. Of one that is too long a front is kept, which is no `cancel` either."""
        try:
            piece = os.read(0, 65_536)
        except OSError:
            piece = b""
        *lines, rest = (self.rest + piece).split(b"\n")
        self.rest = rest[:MOST_INPUT_BYTES]
        for line in lines:
            self.obey(line[:MOST_INPUT_BYTES].decode(errors="replace"))
        if not piece:
            self.selector.unregister(0)
            if self.rest:
                tell("runner: input: BadLine: the last line has no end")

    def obey(self, line: str) -> None:
        """Cancels each task of the name in the line that waits or runs."""
        match line.split(" "):
            case ["cancel", name] if name in self.jobs:
                now = self.tick()
                live = [*self.waiting, *(run.task for run in self.attempts.running.values())]
                answers = [self.event(f"cancel {task}") for task in sorted(live) if self.names[task] == name]
                self.tell(now, f"{name}: {sum(words[-1] == 'yes' for words in answers)} cancelled")
            case ["cancel", name]:
                tell(f"runner: input: UnknownName {name!r}")
            case _:
                tell(f"runner: input: BadLine {line!r}")

    def obey_signals(self) -> None:
        """At the first signal no work is taken any more, and at one that is not sent along with it what runs is ended."""
        os.read(self.signals, MOST_INPUT_BYTES)
        if not self.is_stopping:
            self.stop()
        elif self.origin is not None and self.now() - self.stopped_at >= TOGETHER:
            self.end_running()

    def stop(self) -> None:
        """From now on no work is taken, and a run of which no attempt is under way ends."""
        self.is_stopping = True
        if self.origin is None:
            tell("stopping: not started")
            return
        self.stopped_at = self.now()
        self.tell(self.stopped_at, f"stopping: {len(self.attempts.processes())} running")
        self.attempts.finish_waiting()

    def end_running(self) -> None:
        """Ends what runs, whatever its job says of a cancel."""
        self.tell(self.now(), f"ending: {len(self.attempts.processes())} running")
        self.attempts.end_running()

    def end_all(self) -> None:
        """Ends all jobs that still run, at once."""
        for process in self.attempts.processes():
            process.kill()
