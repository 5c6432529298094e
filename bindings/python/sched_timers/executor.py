"""The executor of a plan, by ctypes: it is told what happens, and answers in lines of text.

>>> plan = b'''version = 2
... [[block]]
... call = [{ op = "rate", name = "heartbeat", first = 10, period = 10 }]
... '''
>>> with Executor(plan, workers=1, limit=1000) as executor:
...     executor.clock(10)
...     executor.lines()
...     executor.start(worker=0)
...     executor.task(0).phase
['0 submit 0 rate due 10', '10 clock']
Run(run=0, due=10, task=0, worker=0)
<Phase.RUNNING: 2>

Moments are nanoseconds from 0 to 2**62. A number that does not fit is a ValueError, and what is no
number, such as a bool, a TypeError; the executor is then as it was. One that is not closed is
freed with its last name, or at the end of the program. A call holds the interpreter's lock, so
that no two threads are in one at a time. An event and the lines that answer it are several calls:
threads that share an executor hold a lock of their own around them.
"""

from __future__ import annotations

from enum import IntEnum
from typing import NamedTuple

from sched_timers import _executor_calls as calls
from sched_timers._executor_calls import Status
from sched_timers._lines import Lined
from sched_timers.executor_errors import (ERRORS, ExecutorClosedError, ExecutorError,
                                          ExecutorMemoryError, Fault, FaultKind, LimitError,
                                          LimitReachedError, PlanError, UnknownTaskError,
                                          UnknownWorkerError, WorkerCountError)

__all__ = ["Executor", "ExecutorClosedError", "ExecutorError", "ExecutorMemoryError", "Fault",
           "FaultKind", "LimitError", "LimitReachedError", "Phase", "PlanError", "Run", "State",
           "Status", "TaskState", "UnknownTaskError", "UnknownWorkerError", "WorkerCountError"]


class Phase(IntEnum):
    """How far a task has come."""

    VACANT = 0    # not submitted yet, or its submission was refused
    NEW = 1       # waits for its run, or was cancelled before that began
    RUNNING = 2   # is run, or was cancelled meanwhile or as its run ended
    DONE = 3      # its last run is done
    FAILED = 4    # its last run failed


class TaskState(NamedTuple):
    """How far a task is."""

    phase: Phase
    run: int   # the number of the run, from 0
    cancelled: bool


class State(NamedTuple):
    """How far an executor is."""

    now: int     # the moment: the greatest of the accepted clocks and the calls made
    lines: int   # how many lines the last event was answered
    tasks: int   # how many tasks the plan has
    taken: int   # how many events were taken
    ripe: bool   # whether the due moment of some task in the queue is reached


class Run(NamedTuple):
    """A run that was started."""

    run: int   # its number, from 0
    due: int   # the moment at which it was due
    task: int
    worker: int


class Executor(Lined):
    """An executor of a plan's text, bytes of TOML, with 1 to 64 workers, which takes `limit`
    events."""

    _errors = ERRORS
    _closed_error = ExecutorClosedError
    _absent = Status.NOT_STARTED

    def __init__(self, plan: bytes | bytearray | memoryview, workers: int,
                 limit: int) -> None:
        super().__init__(calls.library())
        text, fault = bytes(memoryview(plan)), calls.Fault()
        status = self._call("new", text, len(text), workers, limit, fault)
        if status == Status.NO_PLAN:
            raise PlanError(Fault(FaultKind(fault.kind), fault.block, fault.call))
        self._done(status)
        self._frees()

    def clock(self, moment: int) -> None:
        """The clock shows a moment."""
        self._tell("clock", moment)

    def start(self, worker: int) -> Run | None:
        """A worker asks for work: the run that it gets, or None where it is idle, or the line is
        an error."""
        self._tell("start", worker)
        return self.started()

    def started(self) -> Run | None:
        """The run that the last event started, or None where it was no start that got a task."""
        run = calls.Run()
        if not self._finds("started", run):
            return None
        return Run(run.run, run.due, run.task, run.worker)

    def finish(self, worker: int, value: int) -> None:
        """The run of a worker has ended with a value."""
        self._tell("finish", worker, value)

    def fail(self, worker: int, code: int) -> None:
        """The run of a worker has failed, with a code."""
        self._tell("fail", worker, code)

    def cancel(self, task: int) -> None:
        """A task is to be cancelled, by its number."""
        self._tell("cancel", task)

    def state(self) -> State:
        """How far the executor is."""
        state = calls.State()
        self._tell("state_of", state)
        return State(state.now, state.lines, state.tasks, state.taken, bool(state.ripe))

    def task(self, task: int) -> TaskState:
        """How far a task is, by its number."""
        state = calls.Task()
        self._tell("task_of", task, state)
        return TaskState(Phase(state.phase), state.run, bool(state.cancelled))

    def _shown(self) -> str:
        state = self.state()
        return f"tasks={state.tasks} now={state.now} taken={state.taken}"
