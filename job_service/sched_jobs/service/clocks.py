"""The service's two clocks, and how they stand to each other.

The *service's moments*, which the executor is told, never go back: they begin with the wall clock, or where they stood before
if that is later, and then go with the machine's steady clock, which also counts while it is suspended. The *wall clock* is what
calendar times are meant by; it may be set, and then each of them is found anew.
"""

import time
from collections.abc import Callable
from dataclasses import dataclass, field

from sched_jobs.basics import SECOND

# Less than this is no setting of a clock, but how it is kept right.
LEAST_SETTING = SECOND // 2


def steady_clock() -> int:
    return time.clock_gettime_ns(time.CLOCK_BOOTTIME)


def waking_clock() -> int:
    return time.clock_gettime_ns(time.CLOCK_MONOTONIC)


@dataclass
class Clocks:
    """The clocks, from a moment on behind which the service's moments stay. All are nanoseconds."""

    last: int
    wall: Callable[[], int] = time.time_ns
    steady: Callable[[], int] = steady_clock
    waking: Callable[[], int] = waking_clock
    base: int = field(init=False)
    lead: int = field(init=False)
    slept: int = field(init=False)

    def __post_init__(self) -> None:
        wall, steady = self.wall(), self.steady()
        self.base = max(self.last, wall) - steady
        self.lead = wall - (self.base + steady)
        self.slept = steady - self.waking()

    def meet(self, moment: int) -> None:
        """Goes on from a moment that another one's clock has told."""
        self.base = moment - self.steady()

    def now(self) -> int:
        """The service's moment."""
        return self.base + self.steady()

    def ahead(self) -> int:
        """By how much the wall clock shows more than the service's moment."""
        return self.wall() - self.now()

    def wall_at(self, moment: int) -> int:
        """What the wall clock shows, or would show if it is not set, at a moment of the service."""
        return moment + self.ahead()

    def was_set(self) -> bool:
        """Whether the wall clock was set, or the machine was suspended, since this was asked last."""
        ahead, slept = self.ahead(), self.steady() - self.waking()
        found = abs(ahead - self.lead) >= LEAST_SETTING or slept - self.slept >= LEAST_SETTING
        if found:
            self.lead, self.slept = ahead, slept
        return found
