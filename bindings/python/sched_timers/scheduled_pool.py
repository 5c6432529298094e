"""A pool of threads that runs calls at their moments, in the manner of `concurrent.futures`.

>>> beats = []
>>> with ScheduledThreadPoolExecutor(max_workers=4) as pool:
...     answer = pool.schedule(0.02, pow, 2, 10)
...     pulse = pool.schedule_at_fixed_rate(0.01, 0.01, beats.append, "beat")
...     answer.result(), pulse.cancel()
(1024, True)

Spans are seconds, as floats or ints: they are rounded to whole nanoseconds, and a delay below 0
counts as 0. One above 2**62 nanoseconds, which are 146 years, is a SpanTooLongError, a period of 0
or below a ZeroPeriodError, and a nan a NotASpanError: each is a ValueError. What is no number,
such as a bool, is a TypeError. A call begins no sooner than it is due by `time.monotonic`. Calls
that are due at the same moment begin in the order of their submission. The timers that say which
one is next are those of `timers.py`.

A pool that is shut down runs what waits, as its policies say. One that is dropped without that,
and each one at the end of the program, does what is under way or due, as `concurrent.futures`
does, and cancels what is due later: nobody is left to stop that, and it might hold up the end for
days. The end of the program waits for the runs, before it calls what was registered with `atexit`;
it begins as the main thread ends, so a thread that goes on submits in vain from then on, as in
`concurrent.futures`. A pool is not dropped while one of its own tasks that waits or runs refers to
it.

A `__del__` may call a pool. Where the collector of garbage runs it in the midst of a call of that
same pool, its call is done once that one is through: a cancel has its effect at once, and tells its
future then; a submission that is refused is cancelled, or has the error as its exception; and who
would wait for the end of the pool gets a RuntimeError.

No call is made from a signal handler, and a forked child has no pools. `_pool_workers` and
`_sleepers` say how the threads work together.
"""

from __future__ import annotations

import functools
import itertools
import os
import weakref
from collections.abc import Callable
from concurrent.futures import Executor
from concurrent.futures.thread import BrokenThreadPool
from typing import Any, NoReturn, ParamSpec, TypeVar

from sched_timers._numbers import whole
from sched_timers._pool_workers import Workers
from sched_timers._spans import delay_of, period_of
from sched_timers.scheduled_future import ScheduledFuture
from sched_timers.timers import Counts, Policy, RejectedError

__all__ = ["BrokenThreadPool", "Counts", "RejectedError", "ScheduledFuture",
           "ScheduledThreadPoolExecutor"]

P = ParamSpec("P")
T = TypeVar("T")

_POOL_NUMBERS = itertools.count()


class ScheduledThreadPoolExecutor(Executor):
    """A pool of 1 to 255 threads, which it starts at once. Another number is a ValueError; without
    one there are as many as ThreadPoolExecutor has at most.

    Their names begin with `thread_name_prefix`. Each calls `initializer(*initargs)` first, where
    there is an initializer. Once that fails the pool is broken: what waits has a BrokenThreadPool
    as its exception, a submission raises one, and no run comes after those under way.
    """

    def __init__(self, max_workers: int | None = None, thread_name_prefix: str = "",
                 initializer: Callable[..., object] | None = None,
                 initargs: tuple[Any, ...] = ()) -> None:
        if initializer is not None and not callable(initializer):
            raise TypeError("initializer must be a callable")
        self._name = thread_name_prefix or f"{type(self).__name__}-{next(_POOL_NUMBERS)}"
        count = _usual_count() if max_workers is None else whole(max_workers)
        self._workers = Workers(count, self._name, initializer, initargs)
        self._workers.start()
        weakref.finalize(self, self._workers.drop).atexit = False

    def submit(self, fn: Callable[P, T], /,
               *args: P.args, **kwargs: P.kwargs) -> ScheduledFuture[T]:
        """Submits a call for one run at once. It is rejected after a shutdown, as a RuntimeError,
        and so is each submission."""
        call = functools.partial(fn, *args, **kwargs)
        return self._workers.submit(call, self._workers.timers.execute)

    def schedule(self, delay: float, fn: Callable[P, T], /,
                 *args: P.args, **kwargs: P.kwargs) -> ScheduledFuture[T]:
        """Submits a call for one run, `delay` seconds from now."""
        call = functools.partial(fn, *args, **kwargs)
        return self._workers.submit(call, self._workers.timers.schedule, delay_of(delay))

    def schedule_at_fixed_rate(self, initial_delay: float, period: float,
                               fn: Callable[P, object], /,
                               *args: P.args, **kwargs: P.kwargs) -> ScheduledFuture[NoReturn]:
        """Submits a call that runs first `initial_delay` seconds from now, and then at a fixed
        rate: each run is due `period` seconds after the one before it was due. Runs that are late
        are made up for, and do not overlap."""
        call = functools.partial(fn, *args, **kwargs)
        spans = delay_of(initial_delay), period_of(period)
        return self._workers.submit(call, self._workers.timers.at_rate, *spans, is_periodic=True)

    def schedule_with_fixed_delay(self, initial_delay: float, delay: float,
                                  fn: Callable[P, object], /,
                                  *args: P.args, **kwargs: P.kwargs) -> ScheduledFuture[NoReturn]:
        """The same, where each run is due `delay` seconds after the one before it has ended."""
        call = functools.partial(fn, *args, **kwargs)
        spans = delay_of(initial_delay), period_of(delay)
        return self._workers.submit(call, self._workers.timers.with_delay, *spans,
                                    is_periodic=True)

    def shutdown(self, wait: bool = True, *, cancel_futures: bool = False) -> None:
        """Shuts the pool down: submissions are rejected from then on. What runs is run to its end,
        and then, unless `cancel_futures`, what waits, as the policies say; all else is cancelled.
        With `wait` it returns once the threads have ended. A job that waits so for its own pool
        shuts it down, and gets a RuntimeError in place of waiting for itself."""
        timers = self._workers.timers
        self._workers.end_tasks(timers.shutdown_now if cancel_futures else timers.shutdown)
        if wait:
            self.await_termination()

    def await_termination(self, timeout: float | None = None) -> bool:
        """Waits until the pool is terminated, or so many seconds have passed, and says whether it
        is. In a job of the pool it is a RuntimeError."""
        return self._workers.join(timeout)

    @property
    def is_shutdown(self) -> bool:
        """Whether it was shut down."""
        with self._workers.lock:
            return self._workers.timers.state().shut

    @property
    def is_terminated(self) -> bool:
        """Whether it was shut down, each task is over, and so are the threads."""
        return self._workers.have_ended()

    def counts(self) -> Counts:
        """How many tasks wait, and how many run."""
        return self._workers.counts()

    @property
    def continues_periodic(self) -> bool:
        """The policy whether tasks that run again and again go on after a shutdown: false at
        first. Where it is set to false after a shutdown, they are cancelled."""
        return self._policy(Policy.CONTINUE)

    @continues_periodic.setter
    def continues_periodic(self, value: bool) -> None:
        self._set_policy(Policy.CONTINUE, value)

    @property
    def executes_delayed(self) -> bool:
        """The policy whether tasks that wait for a single run have it after a shutdown: true at
        first. Where it is set to false after a shutdown, those that are not due yet are
        cancelled."""
        return self._policy(Policy.EXECUTE)

    @executes_delayed.setter
    def executes_delayed(self, value: bool) -> None:
        self._set_policy(Policy.EXECUTE, value)

    def __repr__(self) -> str:
        with self._workers.lock:
            state = self._workers.timers.state()
        counts = f"workers={len(self._workers.threads)} tasks={state.alive}"
        return f"<{type(self).__name__} {self._name!r} {counts}{' shut' if state.shut else ''}>"

    def _policy(self, policy: Policy) -> bool:
        with self._workers.lock:
            return policy in self._workers.timers.state().policies

    def _set_policy(self, policy: Policy, value: bool) -> None:
        set_policy = self._workers.timers.set_policy
        self._workers.end_tasks(functools.partial(set_policy, policy=policy, value=value))


def _usual_count() -> int:
    """How many threads ThreadPoolExecutor has at most, where nobody says."""
    processors: int | None = getattr(os, "process_cpu_count", os.cpu_count)()
    return min(32, (processors or 1) + 4)
