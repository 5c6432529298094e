"""What a service waits for: descriptors, each with the call that sees to it, and moments."""

import contextlib
import heapq
import itertools
import selectors
import time
from collections.abc import Callable

from sched_jobs.basics import File

Call = Callable[[], None]


class Timer:
    """A call that is made once, later, unless it is taken back."""

    def __init__(self, call: Call) -> None:
        self.call: Call | None = call

    def cancel(self) -> None:
        self.call = None


class Loop:
    """One `poll` for all."""

    def __init__(self) -> None:
        self.selector = selectors.PollSelector()
        self.timers: list[tuple[float, int, Timer]] = []
        self.numbers = itertools.count()

    def watch(self, file: File, call: Call, is_for_writing: bool = False) -> None:
        self.selector.register(file, selectors.EVENT_WRITE if is_for_writing else selectors.EVENT_READ, call)

    def unwatch(self, file: File | None) -> None:
        if file is not None:
            with contextlib.suppress(KeyError):
                self.selector.unregister(file)

    def later(self, seconds: float, call: Call) -> Timer:
        """Makes a call once so many seconds have passed."""
        timer = Timer(call)
        heapq.heappush(self.timers, (time.monotonic() + seconds, next(self.numbers), timer))
        return timer

    def sleep(self, seconds: float) -> None:
        """Sleeps so long at most, and does what comes. What one call has unwatched is not called for any more."""
        if self.timers:
            seconds = max(0.0, min(seconds, self.timers[0][0] - time.monotonic()))
        for key, _ in self.selector.select(seconds):
            if self.selector.get_map().get(key.fd) == key:
                key.data()
        now = time.monotonic()
        while self.timers and self.timers[0][0] <= now:
            timer = heapq.heappop(self.timers)[2]
            if timer.call is not None:
                timer.call()
