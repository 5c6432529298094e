"""What timers refuse."""

from __future__ import annotations

from collections.abc import Sequence

from sched_timers._timers_calls import Status
from sched_timers.errors import ClosedError, SchedError, by_status
from sched_timers.timers_answers import End, Run, TaskRef

__all__ = ["CodeTooLargeError", "IllegalArgumentError", "LONGEST_SPAN", "MomentTooFarError",
           "NotASpanError", "NotRunningError", "NumberTooLargeError", "NumbersExhaustedError",
           "RejectedError", "SpanError", "SpanTooLongError", "TimersClosedError", "TimersError",
           "TimersMemoryError", "UnknownPolicyError", "UnknownTaskError", "UnknownWorkerError",
           "WorkerBusyError", "WorkerCountError", "ZeroPeriodError"]

LONGEST_SPAN = 1 << 62   # nanoseconds


class TimersError(SchedError):
    """A call that was refused. `before` is what a call on many answered up to the one that was
    refused."""

    def __init__(self, before: Sequence[Run | End] = ()) -> None:
        super().__init__(before)
        self.before = before


class TimersMemoryError(TimersError, MemoryError):
    """The library was refused memory, or there are 2**30 slots or more, and each is taken."""

    status = Status.NO_MEMORY


class TimersClosedError(TimersError, ClosedError):
    """The timers are closed."""

    status = Status.NO_TIMERS


class WorkerCountError(TimersError, ValueError):
    """The number of workers is not 1 to 255."""

    status = Status.WORKERS


class RejectedError(TimersError, RuntimeError):
    """A submission came after a shutdown. `task` has the number that it was given, and no slot."""

    status = Status.SHUT

    def __init__(self, task: TaskRef) -> None:
        super().__init__()
        self.args = (task,)
        self.task = task


class IllegalArgumentError(TimersError, ValueError):
    """An argument that no call takes: each is of a class of its own."""

    status = Status.ILLEGAL


class UnknownPolicyError(IllegalArgumentError):
    """There is no such policy."""

    def __str__(self) -> str:
        return "there is no such policy"


class CodeTooLargeError(IllegalArgumentError):
    """The code of a failure is 2**32 or more."""

    def __str__(self) -> str:
        return "the code of a failure is above 4294967295"


class SpanError(TimersError, ValueError):
    """A delay or a period that is refused. `span` is what was handed in, and `unit` what that
    counts."""

    def __init__(self, span: object = None, unit: str = "nanoseconds") -> None:
        super().__init__()
        self.args = (span, unit)
        self.span, self.unit = span, unit

    def _shown(self) -> str:
        """The span as it was handed in. Of a whole number that is long Python writes no digits."""
        span = self.span
        if isinstance(span, int) and span.bit_length() > 256:
            return f"2**{span.bit_length() - 1} or more {self.unit}"
        return f"{span} {self.unit}"


class SpanTooLongError(SpanError):
    """A delay or a period is above 2**62 nanoseconds."""

    status = Status.TOO_LONG

    def __str__(self) -> str:
        if self.span is None:
            return self.status.text
        seconds = f"{LONGEST_SPAN // 10**9}.{LONGEST_SPAN % 10**9:09}"
        return (f"a span of {self._shown()} is above the longest, {seconds} seconds, which are "
                "2^62 nanoseconds")


class ZeroPeriodError(SpanError, IllegalArgumentError):
    """A period, or a delay between runs, is 0, or below."""

    def __str__(self) -> str:
        return (f"a period, or a delay between runs, of {self._shown()} is less than "
                "1 nanosecond")


class NotASpanError(SpanError, IllegalArgumentError):
    """A delay or a period is the float that is no number."""

    def __str__(self) -> str:
        return f"{self._shown()} are no span"


class MomentTooFarError(TimersError, ValueError):
    """The moment of the call would be above 2**62 nanoseconds."""

    status = Status.TOO_FAR


class UnknownWorkerError(TimersError, LookupError):
    """There is no such worker."""

    status = Status.NO_WORKER


class WorkerBusyError(TimersError, RuntimeError):
    """The worker has a run under way."""

    status = Status.BUSY


class NotRunningError(TimersError, RuntimeError):
    """The worker has no run under way."""

    status = Status.NOT_RUNNING


class NumbersExhaustedError(TimersError, OverflowError):
    """No number is left: 2**64 - 1 submissions, or as many runs of the task that is due."""

    status = Status.FULL


class UnknownTaskError(TimersError, LookupError):
    """No submission was given this number yet."""

    status = Status.NO_TASK


class NumberTooLargeError(TimersError, OverflowError):
    """A line of the last call would name a task by a number of 2**32 or more, which no trace
    does."""

    status = Status.NUMBER


# But for RejectedError, which is raised with its task, and those that a call tells more of.
ERRORS = by_status(TimersMemoryError, TimersClosedError, WorkerCountError, IllegalArgumentError,
                   SpanTooLongError, MomentTooFarError, UnknownWorkerError, WorkerBusyError,
                   NotRunningError, NumbersExhaustedError, UnknownTaskError, NumberTooLargeError)
