#!/usr/bin/env python3
"""Measures how late timers begin: 1,000 of them, one each millisecond, by the pool of bindings/python and by Python's sched.

    tools/timers_speed/lateness.py [WORKERS]

A line for each in each of three turns: the median, the 99th percentile and the greatest of the moment at which a timer began less
the one at which it was to begin, in microseconds. There is one worker where no number is named. The shared library is that which
examples/embed/python/run_timers builds, or the one that LIBTIMERS names.
"""

import sched
import sys
import time
from pathlib import Path

sys.path.append(str(Path(__file__).resolve().parent.parent.parent / "bindings" / "python"))

from sched_timers import ScheduledThreadPoolExecutor

TIMERS = 1000
TURNS = 3
STEP = 1_000_000
AHEAD = 200_000_000   # nanoseconds in which all are submitted before the first is due


def dues():
    """The moments at which they are to begin."""
    first = time.monotonic_ns() + AHEAD
    return range(first, first + TIMERS * STEP, STEP)


def by_pool(workers):
    """How late each began by the pool."""
    late = []
    with ScheduledThreadPoolExecutor(workers) as pool:
        for due in dues():
            pool.schedule((due - time.monotonic_ns()) / 1e9, lambda due=due: late.append(time.monotonic_ns() - due))
    return late


def by_sched():
    """How late each began by Python's own module."""
    late, scheduler = [], sched.scheduler(time.monotonic_ns, lambda span: time.sleep(span / 1e9))
    for due in dues():
        scheduler.enterabs(due, 0, lambda due=due: late.append(time.monotonic_ns() - due))
    scheduler.run()
    return late


def tell(name, late):
    """Prints what the lateness of all is like."""
    assert len(late) == TIMERS
    late.sort()
    median, most = late[TIMERS // 2], late[TIMERS * 99 // 100]
    print(f"{name}: median {median / 1000:.0f}, 99th percentile {most / 1000:.0f}, greatest {late[-1] / 1000:.0f} microseconds")


workers = int(sys.argv[1]) if len(sys.argv) > 1 else 1
for _ in range(TURNS):
    tell(f"pool of {workers}", by_pool(workers))
    tell("sched", by_sched())
