"""How a pool ends: by a job of its own, as it is dropped, and at the end of the program."""

import concurrent.futures
import gc
import subprocess
import sys
import threading
import time
import weakref

from recorded_timers import PYTHON
from sched_timers import ScheduledThreadPoolExecutor
from tried_pools import PATIENCE, held, pool_of, refuses, try_all, wait_until

HOUR = 3600


def own_jobs():
    """A job that waits for the end of its own pool is told that it can not; the pool is shut down
    by it, and ends."""
    for workers in (1, 2, 5):
        for ends in (lambda pool: pool.shutdown(), lambda pool: pool.__exit__(None, None, None),
                     lambda pool: pool.shutdown(cancel_futures=True)):
            with pool_of(workers) as pool:
                refused = pool.submit(ends, pool).exception(PATIENCE)
                assert isinstance(refused, RuntimeError), refused
                assert str(refused) == "cannot join current thread" and pool.is_shutdown
                assert pool.await_termination(PATIENCE)
        with pool_of(workers) as pool:
            for words in ((), (0,), (HOUR,)):
                refused = pool.submit(pool.await_termination, *words).exception(PATIENCE)
                assert isinstance(refused, RuntimeError) and not pool.is_shutdown
            assert pool.submit(pool.shutdown, False).result(PATIENCE) is None


def waits():
    """Who waits for the end of a pool waits as long as is said, and for ever where that is more
    than a thread can."""
    with pool_of(2) as pool:
        for timeout in (0, -1, float("-inf"), float("nan"), 0.01):
            assert not pool.await_termination(timeout)
    for timeout in (1e300, float("inf"), 10**400, None):
        with pool_of(2) as pool, pool_of(1) as other:
            waiter = other.submit(pool.await_termination, timeout)
            wait_until(waiter.running)
            pool.shutdown(wait=False)
            assert waiter.result(PATIENCE) is True


def dropped(make):
    """Makes 20 pools, each named by its number, and drops them: all threads have to end."""
    before = set(threading.enumerate())
    kept = [make(ScheduledThreadPoolExecutor(3)) for _ in range(20)]
    gc.collect()
    wait_until(lambda: set(threading.enumerate()) <= before)
    return kept


def drops():
    """A pool that is dropped leaves no thread, and cancels what is not due yet."""
    assert dropped(lambda pool: None) == [None] * 20
    for future in [*dropped(lambda pool: pool.schedule(HOUR, print)),
                   *dropped(lambda pool: pool.schedule_at_fixed_rate(HOUR, HOUR, print)),
                   *dropped(lambda pool: pool.schedule_with_fixed_delay(0, 0.001, int))]:
        refuses(concurrent.futures.CancelledError, future.result, PATIENCE)
        assert future.cancelled() and future.cancel() and future.remaining() is None
    for future in dropped(lambda pool: pool.submit(pow, 2, 3)):
        assert future.result(PATIENCE) == 8


def drops_in_use():
    """What runs, and what is due, is done though its pool is dropped. One that was shut down
    before does what it then has to."""
    pool = ScheduledThreadPoolExecutor(1)
    going, threads = held(pool), pool._workers.threads
    due = [pool.submit(pow, 2, power) for power in range(5)]
    far = pool.schedule(HOUR, print)
    pool = weakref.ref(pool)
    assert pool() is None and not far.done()
    going.set()
    assert [future.result(PATIENCE) for future in due] == [1, 2, 4, 8, 16]
    wait_until(lambda: not any(thread.is_alive() for thread in threads))
    assert far.cancelled()
    pool = ScheduledThreadPoolExecutor(1)
    late = pool.schedule(0.05, pow, 3, 2)
    pool.shutdown(wait=False)
    del pool
    assert late.result(PATIENCE) == 9


def drops_by_jobs():
    """A pool lives while a task of its own refers to it, and may be dropped by its last one; also
    by who has its lock, or while somebody else has it."""
    pool = ScheduledThreadPoolExecutor(1)
    going, threads = held(pool), pool._workers.threads
    inner = concurrent.futures.Future()
    pool.submit(lambda pool: inner.set_result(pool.submit(pow, 2, 4)), pool)
    pool = weakref.ref(pool)
    gc.collect()
    assert pool() is not None
    going.set()
    assert inner.result(PATIENCE).result(PATIENCE) == 16
    wait_until(lambda: not any(thread.is_alive() for thread in threads))
    pool = ScheduledThreadPoolExecutor(2)
    workers = pool._workers
    with workers.lock:
        del pool
        gc.collect()
    assert workers.join(PATIENCE)
    pool = ScheduledThreadPoolExecutor(2)
    workers, has, going = pool._workers, threading.Event(), threading.Event()

    def hold():
        with workers.lock:
            has.set()
            going.wait(PATIENCE)

    holder = threading.Thread(target=hold)
    holder.start()
    has.wait(PATIENCE)
    del pool
    assert not going.is_set()
    going.set()
    assert workers.join(PATIENCE)
    holder.join()


LEFT = """
import sys, threading, time
sys.path.insert(0, sys.argv[1])
from sched_timers import ScheduledThreadPoolExecutor

def tell(name):
    print(f"{name}\\n", end="")   # in one piece, as other threads print too

def run(name):
    begun.set()
    time.sleep(0.1)
    tell(name)

pools = {}
for how in ("left", "shut", "dropped"):
    pool = pools[how] = ScheduledThreadPoolExecutor(1)
    begun = threading.Event()
    pool.continues_periodic = True
    pool.submit(run, f"{how}: under way")
    pool.submit(tell, f"{how}: due")
    pool.schedule(3600, tell, "late")
    pool.schedule_at_fixed_rate(3600, 3600, tell, "never")
    begun.wait()
pools["shut"].shutdown(wait=False)
del pools["dropped"], pool
"""


def program_ends():
    """The end of the program waits for what is under way or due, and for nothing that is due in an
    hour, whether a pool was left alone, shut down or dropped."""
    begun = time.monotonic()
    words = [sys.executable, "-c", LEFT, PYTHON]
    ended = subprocess.run(words, stdout=subprocess.PIPE, stderr=subprocess.STDOUT, text=True,
                           timeout=PATIENCE)
    wanted = [f"{how}: {what}" for how in ("left", "shut", "dropped")
              for what in ("under way", "due")]
    assert sorted(ended.stdout.splitlines()) == sorted(wanted), ended.stdout
    assert ended.returncode == 0 and time.monotonic() < begun + PATIENCE


HANDLED = """
import atexit, sys, threading, time
sys.path.insert(0, sys.argv[1])
from sched_timers import ScheduledThreadPoolExecutor

begun = threading.Event()
pool = ScheduledThreadPoolExecutor(1)
atexit.register(print, "handler")
pool.submit(lambda: (begun.set(), time.sleep(0.2), print("run")))
pool.submit(print, "due")
begun.wait()
"""


def program_ends_before_handlers():
    """What runs and is due at the end of the program is through before the handlers that it has
    registered are called."""
    words = [sys.executable, "-u", "-c", HANDLED, PYTHON]
    ended = subprocess.run(words, stdout=subprocess.PIPE, stderr=subprocess.STDOUT, text=True,
                           timeout=PATIENCE)
    assert ended.stdout == "run\ndue\nhandler\n" and ended.returncode == 0, ended.stdout


FORKED = """
import os, sys, threading, time
sys.path.insert(0, sys.argv[1])
from sched_timers import ScheduledThreadPoolExecutor
pool, held = ScheduledThreadPoolExecutor(2), threading.Event()

def hold():
    with pool._workers.lock:
        held.set()
        time.sleep(0.1)

pool.schedule(3600, print, "late")
threading.Thread(target=hold).start()
held.wait()
child = os.fork()
if child == 0:
    sys.exit(5)
print("child", os.waitstatus_to_exitcode(os.waitpid(child, 0)[1]))
"""


def forked():
    """A forked child has no pool, and ends at once, whoever held the lock as it was forked."""
    words = [sys.executable, "-W", "ignore", "-c", FORKED, PYTHON]
    ended = subprocess.run(words, stdout=subprocess.PIPE, stderr=subprocess.STDOUT, text=True,
                           timeout=PATIENCE)
    assert ended.returncode == 0 and ended.stdout == "child 5\n", ended.stdout


try_all(own_jobs, waits, drops, drops_in_use, drops_by_jobs, program_ends,
        program_ends_before_handlers, forked)
print("each answer came")
