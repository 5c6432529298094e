"""The service's runs: their processes and marks, and what the executor is told of their ends."""

from collections.abc import Callable

from sched_jobs.attempts import Attempts, Run
from sched_jobs.basics import SECOND, File, Json, tell
from sched_jobs.jobs import Job
from sched_jobs.local_times import shown
from sched_jobs.processes import Group
from sched_jobs.service.attempt_processes import FoundProcess, MarkedProcess
from sched_jobs.service.clocks import Clocks
from sched_jobs.service.loop import Loop
from sched_jobs.service.marks import LOST, Marks, read_mark
from sched_jobs.store.book import Book
from sched_jobs.store.entries import LOST_SIGHT, RAN, TAKEN_AS_OK, Entry, Running


def told_end(entry: Entry, worker: int, code: int, attempts: int, is_lost: bool) -> tuple[str, Json]:
    """What the executor is told of the end of a run of a job, and what is noted of that."""
    why = RAN if not is_lost else TAKEN_AS_OK if entry.order.on_crash == "ok" else LOST_SIGHT
    stops = bool(code) and why != TAKEN_AS_OK and not entry.order.job.goes_on
    note: Json = {"code": code, "attempts": attempts, "why": why} | ({"stops": True} if stops else {})
    return f"finish {worker} {'fail' if stops else 'ok'} {code}", note


class Runs:
    """The house of the attempts. `ended` are the runs whose end the executor is still to be told."""

    # An attempt that failed is followed by the next also while the service ends: that one goes on behind it.
    is_stopping = False

    def __init__(self, book: Book, clocks: Clocks, marks: Marks, loop: Loop) -> None:
        self.book, self.clocks, self.marks = book, clocks, marks
        self.loop = loop
        self.attempts = Attempts(self)
        self.ended: list[Run] = []

    def take_up_all(self, was_rebooted: bool) -> None:
        """Takes up what was under way, and forgets the marks of all else."""
        attempts = self.marks.attempts()
        for running in list(self.book.running.values()):
            self.take_up(running, attempts.pop((running.task, running.number), 0), was_rebooted)
        for (task, number), attempt in attempts.items():
            self.marks.forget(task, number, attempt)

    def take_up(self, running: Running, attempt: int, was_rebooted: bool) -> None:
        """Takes up a run of before: its process, or how that ended. One that was not begun is begun, where that is sure."""
        run = Run(running.worker, running.task, running.number, running.due, running.start, max(1, attempt))
        run.is_cancelled = self.book.entries[running.name].is_given_up
        if not was_rebooted or read_mark(self.marks.path(run.task, run.number, run.attempt)) is not None:
            self.attempts.start(run)
        else:
            self.attempts.running[run.worker] = run
            self.lose(run)

    def begin_new(self) -> None:
        """Begins what the executor has given out."""
        for running in self.book.running.values():
            if running.worker not in self.attempts.running:
                self.attempts.start(Run(running.worker, running.task, running.number, running.due, running.start))

    def cancel(self, tasks: set[int], is_ended: bool) -> None:
        """Runs of these tasks have no further attempt; what is under way goes on, unless its job or who has cancelled ends it."""
        for task in tasks:
            self.attempts.note_cancelled(task)
        for run in self.attempts.running.values():
            if is_ended and run.task in tasks and run.process is not None:
                run.process.ask_to_end(self.now())

    def end_of(self, run: Run) -> tuple[str, Json]:
        """What the executor is told of the end of a run, and what is noted of that."""
        return told_end(self.entry(run), run.worker, run.code, run.attempt, run.is_lost)

    # ---- what attempts want of their house

    def watch(self, file: File, call: Callable[[], None]) -> None:
        self.loop.watch(file, call)

    def unwatch(self, file: File | None) -> None:
        self.loop.unwatch(file)

    def now(self) -> int:
        return self.clocks.now()

    def entry(self, run: Run) -> Entry:
        return self.book.entries[self.name(run)]

    def name(self, run: Run) -> str:
        return self.book.running[run.worker].name

    def job(self, run: Run) -> Job:
        return self.entry(run).order.job

    def process(self, run: Run, job: Job, header: bytes) -> Group:
        """Starts an attempt, or takes it up where its mark says that it was begun."""
        path = self.marks.path(run.task, run.number, run.attempt)
        mark = read_mark(path)
        if mark is not None:
            return FoundProcess(path, mark, job.timeout, run.began)
        return MarkedProcess(job.with_environment(self.names_of(run)), header, run.began, path)

    def names_of(self, run: Run) -> dict[bytes, bytes]:
        """What a command finds of its run in its environment."""
        due = (run.due + self.clocks.ahead()) // SECOND
        numbers = {b"SCHED_TASK": run.task, b"SCHED_RUN": run.number, b"SCHED_ATTEMPT": run.attempt, b"SCHED_DUE": due}
        return {b"SCHED_JOB": self.name(run).encode()} | {name: b"%d" % number for name, number in numbers.items()}

    def finish(self, run: Run) -> None:
        self.ended.append(run)

    def lose(self, run: Run) -> None:
        """Nobody knows how an attempt ended: its job says what becomes of it."""
        on_crash = self.entry(run).order.on_crash
        self.tell(self.now(), f"{self.attempts.title(run, with_attempt=True)}: its end was not seen, on_crash = {on_crash}")
        self.attempts.lose(run, LOST, on_crash == "retry")

    def tell(self, now: int, text: str) -> None:
        tell(f"{shown(self.clocks.wall_at(now))} {text}")

    def complain(self, text: str) -> None:
        tell(f"sched-jobs: {text}")
