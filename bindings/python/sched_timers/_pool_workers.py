"""The threads of a pool, and what they share.

The threads are the workers of the timers. The timers, the jobs and who sleeps are read and changed
under one lock; jobs are run, and callbacks are called, without it. The clock is read under the
lock too, so that the timers never see it go back.

A worker polls. Where a run is due it takes it, calls another worker, and leaves the lock. Where
none is due it sleeps, as `_sleepers` says. Whatever may leave no task behind after a shutdown
wakes all workers, and so does the first that finds none: then they end.

The threads know nothing of the pool that they belong to, so it is dropped with its last name. The
drop comes at any moment, perhaps in a thread that has the lock: it leaves a word, and wakes all.
The first worker that finds the word ends the pool.

So may any other call come, from a `__del__`. Where its thread has the lock, what it changes of the
timers is put off until that is given back. Which of two calls has a job is told by who takes it out
of `jobs`, which is one step of the interpreter.
"""

from __future__ import annotations

import atexit
import functools
import itertools
import os
import threading
import time
import weakref
from collections.abc import Callable
from concurrent.futures.thread import BrokenThreadPool
from dataclasses import dataclass
from typing import Any, TypeVar

from sched_timers._gate import LOGGER, Gate
from sched_timers._sleepers import Sleepers
from sched_timers._spans import NANOSECONDS
from sched_timers.scheduled_future import ScheduledFuture
from sched_timers.timers import Counts, Outcome, Phase, Policy, RejectedError, TaskRef, Timers

T = TypeVar("T")

FAILURE = 1
LONGEST_WAIT = threading.TIMEOUT_MAX / 2   # seconds, some 146 years
_ALL: weakref.WeakSet[Workers] = weakref.WeakSet()


@dataclass(eq=False)
class Job:
    """What a task calls, and the future that tells what came of it."""

    future: ScheduledFuture[Any]
    call: Callable[[], Any]
    is_periodic: bool


class Workers:
    """As many threads as timers have workers."""

    def __init__(self, count: int, name: str, initializer: Callable[..., object] | None,
                 initargs: tuple[Any, ...]) -> None:
        self.timers = Timers(count)
        self.lock = Gate()
        # Those that may be withdrawn: of tasks that wait, or run again and again.
        self.jobs: dict[int, Job] = {}
        self._keys = itertools.count()
        self.sleepers = Sleepers(count)
        self._running = 0
        self._is_dropped = False
        self._broken: str | None = None
        # A task that is cancelled leaves at once: none can see it, and a kept one would hold up
        # the end of the pool.
        self.timers.set_policy(time.monotonic_ns(), Policy.REMOVE, True)
        self.threads = [threading.Thread(target=self._work, args=(worker, initializer, initargs),
                                         daemon=True, name=f"{name}_{worker}")
                        for worker in range(count)]

    def start(self) -> None:
        """Starts the threads, all or none."""
        try:
            for thread in self.threads:
                thread.start()
        except BaseException:
            self.end_tasks(self.timers.shutdown)
            raise
        _ALL.add(self)

    # What the pool and its futures call.

    def submit(self, call: Callable[[], Any], submit: Callable[..., TaskRef], *spans: int,
               is_periodic: bool = False) -> ScheduledFuture[Any]:
        """Submits a job. One that is put off is refused by its future."""
        key = next(self._keys)
        job = Job(ScheduledFuture(self, key), call, is_periodic)
        if self.lock.is_mine():
            self.jobs[key] = job
            self.lock.put_off(functools.partial(self._submit_later, job, submit, spans))
        else:
            self._submit(job, submit, spans)
        return job.future

    def _submit(self, job: Job, submit: Callable[..., TaskRef], spans: tuple[int, ...]) -> None:
        """Submits a job, which is there before its task is, so that whatever comes of the task
        finds it."""
        key = job.future._key
        with self.lock:
            if self._broken is not None:
                raise BrokenThreadPool(self._broken)
            self.jobs[key] = job
            try:
                job.future._task = submit(time.monotonic_ns(), *spans, key)
            except BaseException:
                self.jobs.pop(key, None)
                raise
            self.sleepers.call(self.timers.next_due())

    def _submit_later(self, job: Job, submit: Callable[..., TaskRef],
                      spans: tuple[int, ...]) -> None:
        """Submits a job that was put off, unless it was withdrawn since then."""
        key = job.future._key
        try:
            with self.lock:
                if key in self.jobs:
                    self._submit(job, submit, spans)
        except RejectedError:
            job.future._is_withdrawn = True
            _tell(job.future._end_cancelled)
        except Exception as refused:
            self.jobs.pop(key, None)
            _tell(job.future.set_exception, refused)

    def withdraw(self, future: ScheduledFuture[Any]) -> bool:
        """Cancels the task of a future, where that may still be, and says whether the caller is to
        tell the future so."""
        if self.lock.is_mine():
            if self._take_out(future):
                self.lock.put_off(functools.partial(self._end_withdrawn, future))
            return False
        with self.lock:
            is_taken_out = self._take_out(future)
            if is_taken_out:
                self._cancel_task(future)
        return is_taken_out

    def _take_out(self, future: ScheduledFuture[Any]) -> bool:
        """Takes the job of a future out, where it is there. No run of it begins then."""
        if self.jobs.pop(future._key, None) is None:
            return False
        future._is_withdrawn = True
        return True

    def _cancel_task(self, future: ScheduledFuture[Any]) -> None:
        """Cancels the task of a future, where it has one. The caller holds the lock."""
        if future._task is not None:
            self.timers.cancel(future._task)
            self._wake_all_if_terminated()

    def _end_withdrawn(self, future: ScheduledFuture[Any]) -> None:
        """Does for a future what was put off as its job was taken out."""
        with self.lock:
            self._cancel_task(future)
        _tell(future._end_cancelled)

    def remaining(self, task: TaskRef) -> float | None:
        """How many seconds are left until a run is due; None where none comes."""
        with self.lock:
            state = self.timers.task(task)
            if state.phase is Phase.GONE or state.cancelled:
                return None
            return (state.due - time.monotonic_ns()) / NANOSECONDS

    def counts(self) -> Counts:
        """How many tasks wait, and how many run."""
        if not self.lock.is_mine():
            with self.lock:
                return self.timers.ask(time.monotonic_ns())
        # A question is a call, after which the timers no more tell what the one before it ended.
        state = self.timers.state()
        waiting = state.alive - self._running
        return Counts(waiting, self._running, state.shut, state.terminated)

    def end_tasks(self, *calls: Callable[[int], object]) -> None:
        """Makes calls on the timers, each at its moment, and tells the futures of the tasks that
        they end."""
        if self.lock.is_mine():
            self.lock.put_off(functools.partial(self.end_tasks, *calls))
            return
        ended: list[Job] = []
        with self.lock:
            for call in calls:
                call(time.monotonic_ns())
                gone = [self.jobs.pop(task.data, None) for task in list(self.timers.ended())]
                ended += [job for job in gone if job is not None]
            for job in ended:
                job.future._is_withdrawn = self._broken is None
            self._wake_all_if_terminated()
        for job in ended:
            self._tell_no_run(job.future)

    def end(self) -> None:
        """Shuts the pool down. Nobody waits any more for what is not due yet."""
        policies = [functools.partial(self.timers.set_policy, policy=policy, value=False)
                    for policy in (Policy.EXECUTE, Policy.CONTINUE)]
        self.end_tasks(*policies, self.timers.shutdown)

    def drop(self) -> None:
        """The pool was dropped."""
        self._is_dropped = True
        self.sleepers.wake_all()

    def join(self, timeout: float | None) -> bool:
        """Waits for the end of the threads, at most so many seconds, and says whether they have
        ended. One of them would wait for itself, and who has the lock for what it holds up."""
        if threading.current_thread() in self.threads:
            raise RuntimeError("cannot join current thread")
        if self.lock.is_mine():
            raise RuntimeError("cannot wait for a pool within a call of it")
        deadline = None if timeout is None else time.monotonic() + min(timeout, LONGEST_WAIT)
        for thread in self.threads:
            thread.join(None if deadline is None else max(0.0, deadline - time.monotonic()))
        return self.have_ended()

    def have_ended(self) -> bool:
        """Whether the threads have ended."""
        return not any(thread.is_alive() for thread in self.threads)

    # What the threads do.

    def _work(self, worker: int, initializer: Callable[..., object] | None,
              initargs: tuple[Any, ...]) -> None:
        """What a thread does. Nothing of a job is held while the next one is waited for."""
        if initializer is not None:
            _, failure = _ran(functools.partial(initializer, *initargs))
            if failure is not None:
                self._break(failure)
                return
        while self._step(worker):
            pass

    def _break(self, failure: BaseException) -> None:
        """An initializer has failed: no task runs any more."""
        LOGGER.critical("Exception in initializer:", exc_info=failure)
        with self.lock:
            self._broken = f"an initializer failed: {failure!r}"
        self.end_tasks(self.timers.shutdown_now)

    def _step(self, worker: int) -> bool:
        """Looks for a run and does it, or sleeps; false where none can come."""
        if self._is_dropped:
            self._end_dropped()
        found = self._look(worker)
        if found is None:
            return False
        if isinstance(found, float):
            self._sleep(worker, found)
            return True
        if not found.is_periodic:
            found.future.set_running_or_notify_cancel()
        value, failure = _ran(found.call)
        match self._finish(worker, found, failure is not None):
            case Outcome.DONE:
                _tell(found.future.set_result, value)
            case Outcome.FAILED:
                _tell(found.future.set_exception, failure)
            case Outcome.ENDED:
                self._tell_no_run(found.future)
            case Outcome.AGAIN | Outcome.DROPPED:
                pass   # the task goes on, or whoever cancelled it has told its future
        # The traceback of a failure leads to this frame, from which nothing is to lead back to it.
        del found, failure
        return True

    def _look(self, worker: int) -> Job | float | None:
        """Looks for a run, and answers its job, which can be withdrawn no more where it has one
        run; or else how many seconds to sleep; None where none can come."""
        with self.lock:
            run = self.timers.poll(time.monotonic_ns(), worker)
            if run is not None:
                self._running += 1
                self.sleepers.call(self.timers.next_due())
                job = self.jobs.get(run.data)
                if job is not None and not job.is_periodic:
                    job = self.jobs.pop(run.data, None)
                # Where it was withdrawn as its run began, the run is ended, and nobody is told.
                return job or Job(ScheduledFuture(self, run.data), _nothing, False)
            if self.timers.state().terminated:
                self.sleepers.wake_all()
                return None
            return self.sleepers.lie_down(worker, self.timers.next_due())

    def _sleep(self, worker: int, seconds: float) -> None:
        """Sleeps until it is called, or so many seconds have passed."""
        self.sleepers.sleep(worker, seconds)
        with self.lock:
            self.sleepers.rise(worker)

    def _finish(self, worker: int, job: Job, has_failed: bool) -> Outcome:
        """Ends the run of a worker, and says what becomes of the task."""
        with self.lock:
            now = time.monotonic_ns()
            if has_failed:
                end = self.timers.fail(now, worker, FAILURE)
            else:
                end = self.timers.finish(now, worker)
            self._running -= 1
            if job.is_periodic and end.outcome in (Outcome.FAILED, Outcome.ENDED):
                if self.jobs.pop(end.data, None) is None:
                    return Outcome.DROPPED   # it was withdrawn as its run ended
                is_ended = end.outcome is Outcome.ENDED
                job.future._is_withdrawn = is_ended and self._broken is None
            return end.outcome

    def _end_dropped(self) -> None:
        """Ends the pool that was dropped, unless it was shut down before."""
        self._is_dropped = False
        with self.lock:
            is_shut = self.timers.state().shut
        if not is_shut:
            self.end()

    def _wake_all_if_terminated(self) -> None:
        """Wakes all workers where no task is left, and none can come, so that they end. The caller
        holds the lock."""
        if self.timers.state().terminated:
            self.sleepers.wake_all()

    def _tell_no_run(self, future: ScheduledFuture[Any]) -> None:
        """Tells a future whose task the end of the pool has ended: it is withdrawn, unless the pool
        is broken. The caller does not hold the lock."""
        if future._is_withdrawn:
            _tell(future._end_cancelled)
        else:
            _tell(future.set_exception, BrokenThreadPool(self._broken))


def _ran(call: Callable[[], T]) -> tuple[T | None, BaseException | None]:
    """What a call answers, or raises."""
    try:
        return call(), None
    except BaseException as failure:
        return None, failure


def _nothing() -> None:
    """What is done for a task without a job."""


def _tell(tell: Callable[..., object], *words: Any) -> None:
    """Tells a future. What a callback of it raises that is no Exception, as SystemExit, ends no
    worker: it is logged."""
    try:
        tell(*words)
    except BaseException:
        LOGGER.exception("exception calling a callback of a future")


def _end_all() -> None:
    """Ends all pools, also those that are made meanwhile, and waits for the runs that are under way
    or due."""
    ended: list[Workers] = []
    while left := [workers for workers in _ALL if workers not in ended]:
        for workers in left:
            workers.end()
        for workers in left:
            workers.join(None)
        ended += left


# As in `concurrent.futures`, before what the program has registered with `atexit`, so that no run
# goes on beside that; and once more, for pools that other threads made after it.
_register_first = getattr(threading, "_register_atexit", atexit.register)
_register_first(_end_all)
atexit.register(_end_all)
os.register_at_fork(after_in_child=_ALL.clear)
