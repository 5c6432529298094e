"""What the tests of pools share."""

import contextlib
import os
import threading
import time
import traceback
from unittest import mock

from recorded_timers import refuses
from sched_timers import ScheduledThreadPoolExecutor, _pool_workers
from sched_timers.timers import Timers

__all__ = ["PATIENCE", "held", "pool_of", "refuses", "try_all", "wait_until"]

PATIENCE = 60   # seconds for what has to come, after which it counts as lost


@contextlib.contextmanager
def pool_of(workers, kind=Timers, **more):
    """A pool over timers of this kind. At the end it is shut down at once, and has to end."""
    with mock.patch.object(_pool_workers, "Timers", kind):
        pool = ScheduledThreadPoolExecutor(workers, **more)
    try:
        yield pool
    finally:
        pool.shutdown(wait=False, cancel_futures=True)
    assert pool.await_termination(PATIENCE) and pool.is_terminated and pool.is_shutdown
    assert not pool._workers.jobs, pool._workers.jobs


def wait_until(condition):
    """Waits for what has to come."""
    deadline = time.monotonic() + PATIENCE
    while not condition():
        assert time.monotonic() < deadline, "it never came"
        time.sleep(0.001)


def held(pool):
    """Holds up a worker of a pool until the event that is answered is set."""
    begun, going = threading.Event(), threading.Event()
    pool.submit(lambda: (begun.set(), going.wait(PATIENCE)))
    assert begun.wait(PATIENCE)
    return going


def try_all(*tests):
    """Makes tests, one after the other."""
    for test in tests:
        try:
            test()
        except BaseException:
            traceback.print_exc()
            os._exit(1)   # at once: a pool that does not end would hold up the end of this program
