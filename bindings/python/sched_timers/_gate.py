"""The lock of a pool, which knows whether the thread that calls has it.

What collects garbage runs in any thread, in the midst of anything, and a `__del__` may call a
pool. Where it does so in a thread that has the lock of that pool, it may not change what the lock
guards: that is put off until the lock is given back.
"""

from __future__ import annotations

import collections
import logging
import threading
from collections.abc import Callable

LOGGER = logging.getLogger("sched_timers")


class Gate:
    """A lock with calls that are made once it is given back.

    >>> gate, made = Gate(), []
    >>> with gate:
    ...     gate.put_off(lambda: made.append("later"))
    ...     made.append(gate.is_mine())
    >>> made, gate.is_mine()
    ([True, 'later'], False)
    """

    def __init__(self) -> None:
        # As the owner is noted, and as that is taken back, a thread may come to it once more.
        self._lock = threading.RLock()
        self._owner: int | None = None
        self._depth = 0
        self._later: collections.deque[Callable[[], object]] = collections.deque()

    def is_mine(self) -> bool:
        """Whether the thread that calls is in the midst of what the lock guards."""
        return self._owner == threading.get_ident()

    def put_off(self, call: Callable[[], object]) -> None:
        """Has a call made by this thread, which has the lock, once it gives that back."""
        self._later.append(call)

    def __enter__(self) -> None:
        self._lock.acquire()
        self._depth += 1
        self._owner = threading.get_ident()

    def __exit__(self, *_: object) -> None:
        self._depth -= 1
        is_outermost = self._depth == 0
        if is_outermost:
            self._owner = None
        self._lock.release()
        if is_outermost:
            self._catch_up()

    def _catch_up(self) -> None:
        """Makes the calls that were put off. What one raises has nobody to go to: it is logged."""
        while self._later:
            try:
                call = self._later.popleft()
            except IndexError:
                return   # another thread was quicker
            try:
                call()
            except Exception:
                LOGGER.exception("a call that was put off has failed")
