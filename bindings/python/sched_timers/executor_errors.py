"""What an executor refuses."""

from __future__ import annotations

from enum import IntEnum
from typing import NamedTuple

from sched_timers._executor_calls import Status
from sched_timers.errors import ClosedError, SchedError, by_status

__all__ = ["ExecutorClosedError", "ExecutorError", "ExecutorMemoryError", "Fault", "FaultKind",
           "LimitError", "LimitReachedError", "PlanError", "UnknownTaskError",
           "UnknownWorkerError", "WorkerCountError"]


class FaultKind(IntEnum):
    """What is wrong with a plan's text."""

    TOO_LONG = 1          # more than 1,048,576 bytes
    TOML = 2              # no UTF-8, or no TOML document
    VERSION = 3           # `version` is missing, or neither 1 nor 2
    UNKNOWN_KEY = 4       # a table has a key that does not belong there
    MISSING = 5           # a key is missing
    WRONG_TYPE = 6        # a value is not what its key wants
    BAD_UNIT = 7          # a unit is none of those of the plan's version
    BAD_TIMES = 8         # a `times` is not 1 to 65,536
    NEGATIVE = 9          # a moment, an offset or an `every` is below 0
    BAD_NAME = 10         # a name is not 1 to 32 ASCII letters, digits, `-` and `_`
    DUPLICATE_NAME = 11   # a submission has the name of one before it
    UNKNOWN_NAME = 12     # a cancel names no submission that stands before it
    AMBIGUOUS = 13        # a cancel names a submission of an earlier block that is repeated
    OUT_OF_ORDER = 14     # a block or a call comes before one that stands before it
    TOO_LARGE = 15        # a time, or the moment of a call, is above 2**62 nanoseconds
    TOO_MANY = 16         # more than 256 blocks, 256 calls in a block, or 65,536 calls in all


class Fault(NamedTuple):
    """What is wrong with a plan's text, and where."""

    kind: FaultKind
    block: int   # the block, counted from 1; 0: in no block
    call: int    # the call in its block, counted from 1; 0: in no call


class ExecutorError(SchedError):
    """A call that was refused."""


class ExecutorMemoryError(ExecutorError, MemoryError):
    """The library was refused memory."""

    status = Status.NO_MEMORY


class ExecutorClosedError(ExecutorError, ClosedError):
    """The executor is closed."""

    status = Status.NO_EXECUTOR


class PlanError(ExecutorError, ValueError):
    """The text is no plan. `fault` says what is wrong with it, and where."""

    status = Status.NO_PLAN

    def __init__(self, fault: Fault) -> None:
        super().__init__(fault)
        self.fault = fault

    def __str__(self) -> str:
        kind, block, call = self.fault
        return f"{self.status.text}: {kind.name} block {block} call {call}"


class WorkerCountError(ExecutorError, ValueError):
    """The number of workers is not 1 to 64."""

    status = Status.WORKERS


class LimitError(ExecutorError, ValueError):
    """The limit on events is not 1 to 4,294,967,295."""

    status = Status.LIMIT


class LimitReachedError(ExecutorError, RuntimeError):
    """As many events were taken as the limit allows."""

    status = Status.FULL


class UnknownTaskError(ExecutorError, LookupError):
    """The plan has no task of this number."""

    status = Status.UNKNOWN_TASK


class UnknownWorkerError(ExecutorError, LookupError):
    """The worker is above 255, so that no event can name it."""

    status = Status.NO_WORKER


# But for PlanError, which is raised with its fault.
ERRORS = by_status(ExecutorMemoryError, ExecutorClosedError, WorkerCountError, LimitError,
                   LimitReachedError, UnknownTaskError, UnknownWorkerError)
