"""The threads of a pool: how many there are, how they are named, and what they call first."""

import concurrent.futures
import gc
import logging
import sys
import threading
import weakref
from unittest import mock

from tried_pools import PATIENCE, held, pool_of, refuses, try_all, wait_until
from sched_timers import ScheduledThreadPoolExecutor, scheduled_pool
from sched_timers.scheduled_pool import BrokenThreadPool
from sched_timers.timers import WorkerCountError


def count_of(processors):
    """How many threads a pool has on a machine with so many processors, where nobody says."""
    with mock.patch.object(scheduled_pool.os, "cpu_count", lambda: processors), \
            mock.patch.object(scheduled_pool.os, "process_cpu_count", lambda: processors,
                              create=True), \
            ScheduledThreadPoolExecutor() as pool:
        return len(pool._workers.threads)


def counts():
    """As many threads as are asked for, or else as ThreadPoolExecutor has."""
    assert count_of(4) == 8 and count_of(1) == 5 and count_of(None) == 5 and count_of(200) == 32
    with concurrent.futures.ThreadPoolExecutor() as usual, pool_of(None) as pool:
        assert len(pool._workers.threads) == usual._max_workers
    for workers in (1, 255):
        with pool_of(workers) as pool:
            assert len(pool._workers.threads) == workers
    for workers in (0, 256, 1_000):
        refused = refuses(WorkerCountError, ScheduledThreadPoolExecutor, workers)
        assert str(refused) == "the number of workers is not 1 to 255"


def names():
    """Threads have names. A pool is dropped with its last name."""
    with ScheduledThreadPoolExecutor(2, thread_name_prefix="beat") as pool:
        name = pool.submit(lambda: threading.current_thread().name).result(PATIENCE)
        assert name in ("beat_0", "beat_1")
    left = weakref.ref(pool)
    del pool
    gc.collect()
    assert left() is None


def no_thread():
    """Where a thread can not be started, those that were started end."""
    start, started = threading.Thread.start, []

    def start_two(thread):
        if len(started) == 2:
            raise RuntimeError("no third")
        started.append(thread)
        start(thread)

    with mock.patch.object(threading.Thread, "start", start_two):
        refuses(RuntimeError, ScheduledThreadPoolExecutor, 4)
    for thread in started:
        thread.join(PATIENCE)
        assert not thread.is_alive()


def initializers():
    """Each thread calls the initializer first, once."""
    called, words = [], threading.local()

    def note(word, other):
        words.mine = word, other
        called.append(threading.current_thread().name)

    with pool_of(3, thread_name_prefix="first", initializer=note, initargs=("a", 7)) as pool:
        wait_until(lambda: len(called) == 3)
        assert sorted(called) == ["first_0", "first_1", "first_2"]
        assert pool.submit(lambda: words.mine).result(PATIENCE) == ("a", 7)
    for nothing in (5, "print"):
        refuses(TypeError, ScheduledThreadPoolExecutor, 1, "", nothing)


def broken():
    """A pool with an initializer that fails is broken: what waits is told so, what runs goes on to
    its end, and all threads end."""
    going, log, order = threading.Event(), [], iter([False, True])

    def fail_second():
        if next(order):
            going.wait(PATIENCE)
            raise KeyError("no such disk")

    handler = logging.Handler()
    handler.emit = log.append
    logging.getLogger("sched_timers").addHandler(handler)
    with pool_of(2, initializer=fail_second) as pool:
        running = held(pool)
        far, due = pool.schedule(3600, print), pool.submit(print)
        pulse = pool.schedule_at_fixed_rate(3600, 3600, print)
        going.set()
        for future in (far, due, pulse):
            told = future.exception(PATIENCE)
            assert isinstance(told, BrokenThreadPool) and isinstance(told, RuntimeError)
            assert str(told) == "an initializer failed: KeyError('no such disk')", told
            assert not future.cancelled() and not future.cancel() and future.remaining() is None
        for call, *words in [(pool.submit,), (pool.schedule, 1),
                             (pool.schedule_at_fixed_rate, 1, 1)]:
            refuses(BrokenThreadPool, call, *words, print)
        running.set()
        assert pool.await_termination(PATIENCE) and pool.is_shutdown
    logging.getLogger("sched_timers").removeHandler(handler)
    assert [record.getMessage() for record in log] == ["Exception in initializer:"]
    assert log[0].exc_info[0] is KeyError and log[0].levelname == "CRITICAL"


def broken_while_it_runs():
    """Of a task that runs again and again the run under way is the last where its pool breaks."""
    going, order = threading.Event(), iter([False, True])

    def fail_second():
        if next(order):
            going.wait(PATIENCE)
            sys.exit(3)

    logging.getLogger("sched_timers").disabled = True
    with pool_of(2, initializer=fail_second) as pool:
        begun, end = threading.Event(), threading.Event()
        pulse = pool.schedule_at_fixed_rate(0, 1, lambda: (begun.set(), end.wait(PATIENCE)))
        begun.wait(PATIENCE)
        going.set()
        wait_until(lambda: pool.is_shutdown)
        assert not pulse.done()
        end.set()
        assert isinstance(pulse.exception(PATIENCE), BrokenThreadPool)
    logging.getLogger("sched_timers").disabled = False


try_all(counts, names, no_thread, initializers, broken, broken_while_it_runs)
print("each answer came")
