"""Timers, a pool of threads over them, a delay queue, and the executor of a plan.

>>> from sched_timers import ScheduledThreadPoolExecutor
>>> with ScheduledThreadPoolExecutor(max_workers=2) as pool:
...     pool.schedule(0.01, pow, 2, 10).result()
1024

`Timers` are for a program with a clock and a loop of its own, `ScheduledThreadPoolExecutor` has
threads and reads the clock. What belongs to one of them, such as the `Outcome` of a run, stands in
its module: `timers`, `scheduled_pool`, `delay_queue`, `executor`.

Each is over a shared library of its own. `docs/EMBEDDING.md` says how it is made.
"""

from sched_timers.delay_queue import DelayQueue, QueueError
from sched_timers.errors import ClosedError, SchedError
from sched_timers.executor import Executor, ExecutorError
from sched_timers.scheduled_pool import ScheduledFuture, ScheduledThreadPoolExecutor
from sched_timers.timers import Timers, TimersError

__all__ = ["ClosedError", "DelayQueue", "Executor", "ExecutorError", "QueueError", "SchedError",
           "ScheduledFuture", "ScheduledThreadPoolExecutor", "Timers", "TimersError"]
