"""What comes of a task of a pool."""

from __future__ import annotations

from concurrent.futures import Future
from typing import TYPE_CHECKING, TypeVar

from sched_timers.timers_answers import TaskRef

if TYPE_CHECKING:
    from sched_timers._pool_workers import Workers

__all__ = ["ScheduledFuture"]

T = TypeVar("T")


class ScheduledFuture(Future[T]):
    """What comes of a task of a pool.

    That of a task that runs again and again is pending until the task ends: with the exception of
    a run that failed, or else cancelled, by `cancel` or by the end of the pool.
    """

    def __init__(self, workers: Workers, key: int) -> None:
        super().__init__()
        # Not the pool, which is to be dropped though its tasks have futures.
        self._workers, self._key, self._is_withdrawn = workers, key, False
        self._task: TaskRef | None = None

    def cancel(self) -> bool:
        """Cancels the task, and says whether it is cancelled, now or before. One with a single run
        is not, once the run has begun. Of one that runs again and again a run that is under way
        goes on, and none comes after it."""
        if self._workers.withdraw(self):
            self._end_cancelled()
        return self._is_withdrawn

    def remaining(self) -> float | None:
        """How many seconds are left until the next run is due, or the one under way was: below 0
        where that moment has passed. None once the task is over or cancelled."""
        return None if self._task is None else self._workers.remaining(self._task)

    def _end_cancelled(self) -> None:
        """The future is cancelled, and who waits for it is told. It is called once, by whoever
        withdrew it, without the lock."""
        super().cancel()
        self.set_running_or_notify_cancel()
