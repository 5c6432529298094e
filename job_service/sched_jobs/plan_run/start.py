"""The moment of the wall clock at which a plan starts, and the wait for it.

The wall clock can be set, so it is read again each second: what it shows decides, and not how long was slept. Linux can end
a sleep when the clock is set (`timerfd_create`), which Python has from 3.13 on.
"""

import time
from collections.abc import Callable
from dataclasses import dataclass

from sched_jobs.basics import SECOND, Fault
from sched_jobs.local_times import When

LONGEST_SLEEP = SECOND


@dataclass(frozen=True)
class Start:
    """A moment of the wall clock. It was not reached at `seen`, which is a moment of the steady clock."""

    moment: int
    seen: int

    def wait(
        self, sleep: Callable[[float], bool],
        wall: Callable[[], int] = time.time_ns, steady: Callable[[], int] = time.monotonic_ns,
    ) -> int | None:
        """Waits until the wall clock reaches the moment, or is set to a later one. Answers when that was by the steady
        clock, and none where a sleep, which takes seconds, says that it was the last one."""
        seen = self.seen
        while (left := self.moment - wall()) > 0:
            seen = steady()
            if not sleep(min(left, LONGEST_SLEEP) / SECOND):
                return None
        return max(steady() + left, seen)


def start_at(when: When) -> Start:
    """The next of these moments."""
    seen = time.monotonic_ns()
    try:
        return Start(when.next(time.time_ns()), seen)
    except Fault as fault:
        raise Fault(f"start: {fault}") from fault
