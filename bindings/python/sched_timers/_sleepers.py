"""Which workers of a pool sleep, and whom to wake.

One that finds nothing due sleeps: as the leader, until the first task is due; or for ever, where a
leader sleeps already until a moment no later than that. To call a worker is to ring the bell of
one that sleeps, and it is done only where no leader sleeps until the first task so; a leader that
sleeps until a later moment leads no more from then on. So no worker looks again before something
has changed, or a moment has come that it slept until.

No wake-up is lost. Whenever the lock is free, a task waits and a worker sleeps, then a leader
sleeps until a moment no later than that at which the first task is due, or a worker that was
called, whose time is up or whose run has ended is on its way to the lock, and will poll. Each
change keeps this. A submission calls a worker, and so does a worker that takes a run. One whose
run has ended polls next, so it sees what that run left. One that lies down was just told that
nothing is due, leads where nobody else does, and hears a ring that came before it slept. A cancel,
a policy or a shutdown makes the first task no sooner; a leader wakes for nothing then, once. What
a worker does next hangs on what it finds, not on why it woke, so that two calls which wake one
worker do no harm: it calls the next one itself.
"""

from __future__ import annotations

import threading
import time

from sched_timers._spans import NANOSECONDS

FOR_EVER = -1.0


class Bell:
    """What one thread sleeps by. A ring is kept until it is heard, and a second one adds nothing.

    It takes no lock that a ringer could wait for, so it may be rung from anywhere, also by what
    collects garbage.

    >>> bell = Bell()
    >>> bell.ring()
    >>> bell.ring()
    >>> bell.sleep(3600)   # no longer than until now
    """

    def __init__(self) -> None:
        self._silence = threading.Lock()
        self._silence.acquire()

    def ring(self) -> None:
        """Wakes the thread, now or as it goes to sleep."""
        try:
            self._silence.release()
        except RuntimeError:
            pass   # it was rung, and nobody has heard it yet

    def sleep(self, seconds: float) -> None:
        """Sleeps until it is rung, or so many seconds have passed."""
        self._silence.acquire(timeout=seconds)

    def silence(self) -> None:
        """Forgets a ring that nobody has heard."""
        self._silence.acquire(blocking=False)


class Sleepers:
    """The workers that sleep, and the one of them that leads. The lock of the pool is held in each
    call but `sleep`, and `wake_all`, which may come from anywhere."""

    def __init__(self, count: int) -> None:
        self._bells = [Bell() for _ in range(count)]
        self._asleep: list[int] = []
        self.leader: int | None = None
        self._leads_until = 0

    def call(self, due: int | None) -> None:
        """Calls a worker where no leader sleeps until the first task, which is due then."""
        if due is None or self._is_led(due):
            return
        self.leader = None
        if self._asleep:
            self._bells[self._asleep.pop(0)].ring()

    def lie_down(self, worker: int, due: int | None) -> float:
        """A worker goes to sleep while the first task is due then: how many seconds it sleeps at
        most."""
        self._asleep.append(worker)
        if due is None or self._is_led(due):
            return FOR_EVER
        self.leader, self._leads_until = worker, due
        return max(0.0, (due - time.monotonic_ns()) / NANOSECONDS)

    def sleep(self, worker: int, seconds: float) -> None:
        """Sleeps until the worker is called, or so many seconds have passed. `rise` follows."""
        self._bells[worker].sleep(seconds)

    def rise(self, worker: int) -> None:
        """A worker is awake, and looks for work next."""
        self._bells[worker].silence()
        if worker in self._asleep:
            self._asleep.remove(worker)
        if self.leader == worker:
            self.leader = None

    def wake_all(self) -> None:
        """Wakes all workers."""
        for bell in self._bells:
            bell.ring()

    def _is_led(self, due: int) -> bool:
        """Whether a leader sleeps until a moment no later than this one."""
        return self.leader is not None and self._leads_until <= due
