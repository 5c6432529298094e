"""The runs of this node: those that the log gives to it. What it gives no more is ended, and not told."""

import contextlib
from collections.abc import Callable
from pathlib import Path

from sched_jobs.attempts import Run
from sched_jobs.basics import SECOND
from sched_jobs.cluster.words import End
from sched_jobs.processes import Group, Lost, Scarce
from sched_jobs.service.attempt_processes import FoundProcess
from sched_jobs.service.clocks import Clocks
from sched_jobs.service.loop import Loop
from sched_jobs.service.marks import Marks, read_mark
from sched_jobs.service.runs import Runs
from sched_jobs.store.book import Book
from sched_jobs.store.entries import Running

Place = tuple[int, int]


def place_of(running: Running) -> Place:
    """What makes a run that was given to a node known: its worker, and the revision of the log that gave it."""
    return running.worker, running.fence


class NodeRuns(Runs):
    """The house of this node's attempts of one log. Its moments are the node's own, which nobody sets. `untold` are the runs whose ends
    the log does not have yet."""

    def __init__(self, node: str, book: Book, marks: Marks, loop: Loop, told: Callable[[End], None]) -> None:
        super().__init__(book, Clocks(0), marks, loop)
        self.node, self.told = node, told
        self.places: dict[int, Place] = {}
        self.untold: dict[Place, Run] = {}
        self.strays: list[tuple[Group, Path]] = []
        self.has_begun = False

    def given(self) -> dict[Place, Running]:
        return {place_of(running): running for running in self.book.running.values() if running.node == self.node}

    def begin(self, was_rebooted: bool) -> None:
        """Takes up what was under way here, once the log is whole, and ends what the log gives to others or to nobody."""
        self.has_begun = True
        given, marks = self.given(), self.marks.each()
        runs = {(running.task, running.number): running for running in given.values()}
        last: dict[tuple[int, int], int] = {}
        for task, number, attempt in marks:
            if (task, number) in runs and attempt >= runs[task, number].attempt:
                last[task, number] = attempt
            else:
                self.end_stray(task, number, attempt)
        for place, running in given.items():
            self.places[running.worker] = place
            self.take_up(running, last.get((running.task, running.number), running.attempt), was_rebooted)

    def settle(self, may_begin: bool) -> None:
        """Goes by what the log gives now: lets go, begins, and cancels."""
        given = self.given()
        for place in self.untold.keys() - given.keys():
            run = self.untold.pop(place)
            self.marks.forget(run.task, run.number, run.attempt)
        for worker, run in list(self.attempts.running.items()):
            if self.places[worker] not in given:
                self.let_go(run)
            elif not run.is_cancelled and self.entry(run).is_given_up:
                self.attempts.note_cancelled(run.task)
        for place, running in given.items():
            if may_begin and running.worker not in self.attempts.running and place not in self.untold:
                self.places[running.worker] = place
                self.attempts.start(Run(running.worker, running.task, running.number, running.due, running.start, running.attempt))

    def end_named(self, names: list[str]) -> None:
        """Ends what runs of these jobs."""
        for run in list(self.attempts.running.values()):
            if run.process is not None and self.name(run) in names:
                run.process.ask_to_end(self.now())

    def finish(self, run: Run) -> None:
        place = self.places.pop(run.worker)
        self.untold[place] = run
        self.told(End(*place, run.code, run.attempt, run.is_lost))

    def names_of(self, run: Run) -> dict[bytes, bytes]:
        due = (run.due + self.book.ahead) // SECOND
        return super().names_of(run) | {b"SCHED_FENCE": b"%d" % self.places[run.worker][1], b"SCHED_DUE": b"%d" % due,
                                        b"SCHED_NODE": self.node.encode()}

    # ---- what is this node's no more

    def let_go(self, run: Run) -> None:
        """The log has ended this run, or given it to another node, since this one was away."""
        del self.attempts.running[run.worker], self.places[run.worker]
        self.complain(f"task {run.task} run {run.number}: it was told as ended while this node was away, and is ended")
        path = self.marks.path(run.task, run.number, run.attempt)
        if run.process is None:
            path.unlink(missing_ok=True)
        else:
            self.unwatch(run.process.pidfd)
            self.stray(run.process, path)

    def end_stray(self, task: int, number: int, attempt: int) -> None:
        path = self.marks.path(task, number, attempt)
        mark = read_mark(path)
        if mark is None or not mark.is_under_way():
            path.unlink(missing_ok=True)
        else:
            self.stray(FoundProcess(path, mark, None, self.now()), path)

    def stray(self, process: Group, mark: Path) -> None:
        """Ends a process of which nothing is told."""
        process.ask_to_end(self.now())
        self.strays.append((process, mark))

    def end_strays(self) -> None:
        """Sees to those that were asked to end."""
        for stray in list(self.strays):
            process, mark = stray
            process.end_if_due(self.now())
            if not process.is_running():
                self.strays.remove(stray)
                with contextlib.suppress(Scarce, Lost):
                    process.end()
                mark.unlink(missing_ok=True)

    def moments(self) -> list[int | None]:
        return [*self.attempts.moments(), *(self.now() + SECOND // 10 for _ in self.strays)]
