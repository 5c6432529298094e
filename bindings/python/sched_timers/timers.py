"""Timers for a server, by ctypes: timeouts, retries and heartbeats, submitted and cancelled while
it runs.

>>> with Timers(workers=1) as timers:
...     task = timers.schedule(0, 5_000_000, 70)   # once, 5 ms after the call, with 70
...     timers.next_due()                          # the moment to wait for
...     timers.poll(5_000_000).data
...     timers.finish(5_000_000).outcome
5000000
70
<Outcome.DONE: 0>

They read no clock, run no task and start no thread: `scheduled_pool` does so over them. Moments
are nanoseconds from 0 to 2**62, as are delays and periods; what is due above 2**62 never runs.
Hand in a clock that does not go back, such as `time.monotonic_ns()`. A poll or an end of a run is
made at the moment handed in, or now where that would go back: now is the greatest moment so far. A
cancel is made now. Each other call that takes a moment is made at the greatest of the one handed
in, now, and 1 ns after the last poll or end of a run; a delay counts from there.

A call that is refused raises a `TimersError` of its own class. A number that does not fit is a
ValueError, of a span that is too long a `SpanTooLongError`, and what is no number, such as a bool,
a TypeError. The timers are then as they were, but that what a call on many did before it was
refused has happened.

>>> timers = Timers(workers=1)
>>> timers.finish(0)
Traceback (most recent call last):
sched_timers.timers_errors.NotRunningError: the worker has no run under way
>>> timers.schedule(0, -1)
Traceback (most recent call last):
ValueError: -1 is not 0 to 18446744073709551615
>>> timers.schedule(0, 0.5)
Traceback (most recent call last):
TypeError: 'float' object cannot be interpreted as an integer

A task is in the timers as long as something may come of it, and their length says how many are.

>>> task = timers.execute(0)
>>> task in timers, len(timers)
(True, 1)
>>> timers
<Timers workers=1 alive=1 now=0>

Timers that are not closed are freed with their last name. A call holds the interpreter's lock, so
that no two threads are in one at a time. A call and its lines are several calls: threads that
share timers hold a lock of their own around them. No call is made in the forked child of a process
with threads.
"""

from __future__ import annotations

import ctypes
from collections.abc import Iterable

from sched_timers import _timers_calls as calls
from sched_timers._library import DONE
from sched_timers._lines import Lined
from sched_timers._numbers import MOMENT, NUMBER, Flag, whole
from sched_timers._timers_calls import Status
from sched_timers.timers_answers import (Counts, Effect, End, Ending, Gone, Outcome, Phase, Policy,
                                         Run, State, TaskRef, TaskState)
from sched_timers.timers_errors import (ERRORS, LONGEST_SPAN, CodeTooLargeError,
                                        IllegalArgumentError, MomentTooFarError, NotASpanError,
                                        NotRunningError, NumbersExhaustedError,
                                        NumberTooLargeError, RejectedError, SpanError,
                                        SpanTooLongError, TimersClosedError, TimersError,
                                        TimersMemoryError, UnknownPolicyError, UnknownTaskError,
                                        UnknownWorkerError, WorkerBusyError, WorkerCountError,
                                        ZeroPeriodError)

__all__ = ["CodeTooLargeError", "Counts", "Effect", "End", "Ending", "Gone",
           "IllegalArgumentError", "LONGEST_SPAN", "MomentTooFarError", "NotASpanError",
           "NotRunningError", "NumberTooLargeError", "NumbersExhaustedError", "Outcome", "Phase",
           "Policy", "RejectedError", "Run", "SpanError", "SpanTooLongError", "State", "Status",
           "TaskRef", "TaskState", "Timers", "TimersClosedError", "TimersError",
           "TimersMemoryError", "UnknownPolicyError", "UnknownTaskError", "UnknownWorkerError",
           "WorkerBusyError", "WorkerCountError", "ZeroPeriodError"]


class Timers(Lined):
    """Timers for 1 to 255 workers, whom calls name from 0.

    The texts of all calls, taken by `text` after each, are the trace that `sched check` takes
    beside a plan with the submissions, the policies, the shutdowns and the questions, at the
    moments that the lines tell, as long as these are 65,536 at most, and no call names a worker
    of 64 or above.
    """

    _errors = ERRORS
    _closed_error = TimersClosedError
    _absent = Status.IDLE

    def __init__(self, workers: int) -> None:
        super().__init__(calls.library())
        self._tell("new", workers)
        # At the end of the program this may be a forked child, which makes no call.
        self._frees(at_exit=False)
        self._workers = whole(workers)

    def reserve(self, tasks: int) -> None:
        """Makes at least so many slots: no submission needs memory while fewer tasks than that are
        alive. It has no line."""
        self._tell("reserve", tasks)

    def schedule(self, now: int, delay: int, data: int = 0) -> TaskRef:
        """Submits a task for one run, `delay` nanoseconds after the moment of the call."""
        return self._submit("schedule", now, (delay,), data)

    def execute(self, now: int, data: int = 0) -> TaskRef:
        """Submits a task for one run at once."""
        return self._submit("execute", now, (), data)

    def at_rate(self, now: int, first: int, period: int, data: int = 0) -> TaskRef:
        """Submits a task that runs first `first` nanoseconds after the moment of the call, and
        then at a fixed rate: each run is due `period` nanoseconds after the one before it was due,
        however long that took."""
        return self._submit("rate", now, (first, period), data)

    def with_delay(self, now: int, first: int, delay: int, data: int = 0) -> TaskRef:
        """The same, where each run is due `delay` nanoseconds after the one before it was
        finished."""
        return self._submit("fixed", now, (first, delay), data)

    def cancel(self, task: TaskRef) -> Effect:
        """Cancels a task. One that waits is kept in the queue until a poll meets it, a shutdown
        or a policy sweeps it, or a purge takes it out, unless the remove policy is set. A run that
        is under way goes on, and is finished as any other; no run comes after it."""
        effect = ctypes.c_uint32()
        self._tell("cancel", _ref(task), effect)
        return Effect(effect.value)

    def purge(self) -> None:
        """Takes each task out of the queue that was cancelled while it waited, and is kept. No other
        task changes. It is made now, also where the timers are shut."""
        self._tell("purge")

    def poll(self, now: int, worker: int = 0) -> Run | None:
        """Begins a run for a worker that has none under way, or answers None where nothing is due:
        a run of the task with the least due moment, and of those with one due moment of the one
        submitted first."""
        run = calls.Run()
        return _run(*calls.RUNS.first(run)) if self._finds("poll", now, worker, run) else None

    def poll_many(self, now: int, workers: Iterable[int]) -> list[Run]:
        """Polls for each worker in turn, at one moment, until one begins no run. The lines are
        those of the last poll that was not refused: a program that keeps a trace polls one by
        one."""
        packed = calls.RUNS.packed((0, 0, 0, 0, 0, worker) for worker in workers)
        count, begun = len(packed) // calls.RUNS.size, ctypes.c_size_t()
        rows = (calls.Run * count).from_buffer_copy(packed)
        status = self._call("poll_many", now, rows, count, begun)
        taken = bytes(rows)[:begun.value * calls.RUNS.size]
        runs = [_run(*words) for words in calls.RUNS.unpacked(taken)]
        if status != Status.IDLE:
            self._done(status, runs)
        return runs

    def finish(self, now: int, worker: int = 0, value: int = 0) -> End:
        """The run of a worker has ended with a value, and what becomes of its task is answered."""
        end = calls.End()
        self._tell("finish", now, worker, value, end)
        return _end(*calls.ENDS.first(end))

    def fail(self, now: int, worker: int = 0, code: int = 0) -> End:
        """The same of a run that has failed, with a code of the program's own: no run of its task
        comes after it."""
        end = calls.End()
        self._tell("fail", now, worker, code, end)
        return _end(*calls.ENDS.first(end))

    def finish_many(self, now: int, endings: Iterable[Ending]) -> list[End]:
        """Finishes the run of each worker in turn, at one moment, until one is refused. The lines
        are those of the last run that ended."""
        packed = calls.ENDINGS.packed((value, worker, int(Flag.checked(failed)))
                                      for worker, value, failed in endings)
        count, ended = len(packed) // calls.ENDINGS.size, ctypes.c_size_t()
        rows, out = (calls.Ending * count).from_buffer_copy(packed), (calls.End * count)()
        status = self._call("finish_many", now, rows, count, out, count, ended)
        told = bytes(out)[:ended.value * calls.ENDS.size]
        ends = [_end(*words) for words in calls.ENDS.unpacked(told)]
        if status == Status.ILLEGAL:
            raise CodeTooLargeError(ends)
        self._done(status, ends)
        return ends

    def next_due(self) -> int | None:
        """The moment at which the first task that waits is due, before which no poll begins a run;
        None where no task waits."""
        due = ctypes.c_uint64()
        return due.value if self._finds("next_due", due) else None

    def head_due(self) -> int | None:
        """The moment at which the head of the queue is due, which waits or is kept, before which no
        poll takes a task out of the queue; None where the queue is empty."""
        due = ctypes.c_uint64()
        return due.value if self._finds("head_due", due) else None

    def task(self, task: TaskRef) -> TaskState:
        """How far a task is: the one of the number, whatever the slot."""
        state = calls.Task()
        self._tell("task_of", _ref(task), state)
        return TaskState(state.run, state.due, Phase(state.phase), bool(state.cancelled))

    def state(self) -> State:
        """How far the timers are. It has no line."""
        state = calls.State()
        self._tell("state_of", state)
        policies = frozenset(policy for policy in Policy if state.policies >> policy & 1)
        return State(state.now, state.numbers, state.alive, state.ended, state.lines, policies,
                     bool(state.shut), bool(state.terminated))

    def ask(self, now: int) -> Counts:
        """How many tasks there are, as a call that has a line."""
        counts = calls.Counts()
        self._tell("ask", now, counts)
        return Counts(counts.queue, counts.running, bool(counts.shut), bool(counts.terminated))

    def set_policy(self, now: int, policy: Policy, value: bool) -> None:
        """Sets a policy. Where the timers are shut, and the continue or the execute policy is set
        to false, this ends the tasks that the policies do not let run any more: `ended` tells
        them."""
        status = self._call("set_policy", now, policy, value)
        if status == Status.ILLEGAL:
            raise UnknownPolicyError
        self._done(status)

    def shutdown(self, now: int) -> bool:
        """Shuts the timers down in order, and says whether they were not shut before: submissions
        are rejected from then on. The first such call ends the tasks that the policies do not let
        run any more: `ended` tells them."""
        first = ctypes.c_uint32()
        self._tell("shutdown", now, first)
        return bool(first.value)

    def shutdown_now(self, now: int) -> None:
        """Shuts the timers down at once: submissions are rejected from then on, each task that
        waits is ended, as `ended` tells, and of a task that runs no run comes after this one."""
        self._tell("shutdown_now", now)

    def ended(self) -> list[Gone]:
        """The tasks that the last call ended as it set a policy or shut the timers down, in the
        order of their submission."""
        gone = calls.Gone()
        tasks: list[Gone] = []
        while self._finds("ended", len(tasks), gone):
            tasks.append(Gone(TaskRef(gone.task.number, gone.task.slot), gone.data))
        return tasks

    def __contains__(self, task: object) -> bool:
        """Whether a task is alive: it stands in the queue, or has a run under way."""
        self._check_open()
        try:
            return isinstance(task, TaskRef) and self.task(task).phase is not Phase.GONE
        except (TypeError, ValueError, UnknownTaskError):
            return False

    def __len__(self) -> int:
        """How many tasks are alive."""
        return self.state().alive

    def _shown(self) -> str:
        state = self.state()
        return f"workers={self._workers} alive={state.alive} now={state.now}"

    def _submit(self, name: str, now: int, spans: tuple[int, ...], data: int) -> TaskRef:
        """The task of a submission."""
        out = calls.Ref()
        try:
            status = self._call(name, now, *spans, data, out)
        except ValueError:
            _check_lengths(spans)   # of one above 2**64 it tells more
            raise
        task = TaskRef(out.number, out.slot)
        if status != DONE:
            self._refuse(status, task, spans)
        return task

    def _refuse(self, status: int, task: TaskRef, spans: tuple[int, ...]) -> None:
        """Raises the error of a submission that was not done."""
        if status == Status.SHUT:
            raise RejectedError(task)
        if status == Status.ILLEGAL:
            raise ZeroPeriodError(spans[-1])
        if status == Status.TOO_LONG:
            _check_lengths(spans)
        self._done(status)


def _check_lengths(spans: tuple[int, ...]) -> None:
    """Raises the error of the first span that is too long, where one is."""
    for span in spans:
        if whole(span) > LONGEST_SPAN:
            raise SpanTooLongError(span) from None


def _ref(task: TaskRef) -> calls.Ref:
    """A task as the library takes it."""
    number, slot = task
    return calls.Ref(MOMENT.checked(number), NUMBER.checked(slot))


def _run(number: int, slot: int, run: int, due: int, data: int, worker: int) -> Run:
    """A run of the words of its structure."""
    return Run(TaskRef(number, slot), run, due, data, worker)


def _end(number: int, slot: int, run: int, data: int, value: int, outcome: int) -> End:
    """An end of the words of its structure."""
    return End(TaskRef(number, slot), run, data, value, Outcome(outcome))
