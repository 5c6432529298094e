"""The delay queue, by ctypes.

>>> with DelayQueue(3) as queue:
...     queue.insert([(5000, 0), (3000, 2)])
...     queue.poll(4000)
...     0 in queue, 2 in queue, len(queue)
[(3000, 2)]
(True, False, 1)

An entry is a pair of a moment and a task, plain since there may be many. Moments are nanoseconds
from 0 to 2**64 - 1, tasks are numbers below the count that the queue was made for. A number that
does not fit is a ValueError, and what is no number, such as a bool, a TypeError; the queue is then
as it was.

>>> with DelayQueue(3) as queue:
...     queue.insert([(5000, -1)])
Traceback (most recent call last):
ValueError: -1 is not 0 to 4294967295

A queue that is not closed is freed with its last name, or at the end of the program. Threads may
share one: a call holds the interpreter's lock.
"""

from __future__ import annotations

import ctypes
from collections.abc import Iterable
from typing import cast

from sched_timers import _delay_queue_calls as calls
from sched_timers._delay_queue_calls import Status
from sched_timers._library import Slotted
from sched_timers._numbers import NUMBER, whole
from sched_timers.errors import ClosedError, SchedError, by_status

__all__ = ["DelayQueue", "EntryExistsError", "QueueClosedError", "QueueError",
           "QueueMemoryError", "Status", "UnknownTaskError"]


class QueueError(SchedError):
    """A call that was refused. `place` says which of several entries; those before it are in the
    queue."""

    def __init__(self, place: int = 0) -> None:
        super().__init__(place)
        self.place = place


class QueueMemoryError(QueueError, MemoryError):
    """The library was refused memory."""

    status = Status.NO_MEMORY


class QueueClosedError(QueueError, ClosedError):
    """The queue is closed."""

    status = Status.NO_QUEUE


class UnknownTaskError(QueueError, LookupError):
    """The task is not below the count of tasks."""

    status = Status.UNKNOWN_TASK


class EntryExistsError(QueueError, ValueError):
    """The task has an entry already."""

    status = Status.HAS_ENTRY


ERRORS = by_status(QueueMemoryError, QueueClosedError, UnknownTaskError, EntryExistsError)


class DelayQueue(Slotted):
    """A queue for the tasks from 0 to `tasks - 1`, each with at most one entry."""

    _errors = ERRORS
    _closed_error = QueueClosedError
    _absent = Status.NO_ENTRY

    def __init__(self, tasks: int) -> None:
        super().__init__(calls.library())
        self._tell("new", tasks)
        self._frees()
        self._tasks = whole(tasks)

    def insert(self, entries: Iterable[tuple[int, int]]) -> None:
        """Adds pairs of a moment and a task, in turn, up to the first that is refused. Where a
        number does not fit, none is added."""
        packed = calls.ENTRIES.packed(entries)
        count, inserted = len(packed) // calls.ENTRIES.size, ctypes.c_size_t()
        rows = (calls.Entry * count).from_buffer_copy(packed)
        self._done(self._call("insert_many", rows, count, inserted), inserted.value)

    def poll(self, now: int, room: int = 1024) -> list[tuple[int, int]]:
        """The entries that are due at `now`, the least first, at most `room`. They leave the
        queue."""
        count, polled = min(whole(room), len(self)), ctypes.c_size_t()
        rows = (calls.Entry * count)()
        self._tell("poll_many", now, rows, count, polled)
        taken = bytes(rows)[:polled.value * calls.ENTRIES.size]
        return list(calls.ENTRIES.unpacked(taken))

    def peek(self) -> tuple[int, int] | None:
        """The least entry, due or not, or None."""
        entry = calls.Entry()
        return (entry.due, entry.task) if self._finds("peek", entry) else None

    def remove(self, task: int) -> bool:
        """Takes out the entry of a task, and says whether there was one."""
        return self._finds("remove", task)

    def due_of(self, task: int) -> int | None:
        """When a task is due, or None where it has no entry."""
        due = ctypes.c_uint64()
        return due.value if self._finds("due_of", task, due) else None

    def touched(self) -> int:
        """How often the calls so far compared two entries, or changed the place of an entry that
        stays."""
        touched = ctypes.c_uint64()
        self._tell("touched", touched)
        return touched.value

    def __contains__(self, task: object) -> bool:
        """Whether a task has an entry. What is no number of a task has none."""
        self._check_open()
        try:
            number = NUMBER.checked(cast(int, task))
        except (TypeError, ValueError):
            return False
        return self._finds("contains", number)

    def __len__(self) -> int:
        """How many entries there are."""
        count = ctypes.c_size_t()
        self._tell("len", count)
        return count.value

    def _shown(self) -> str:
        return f"tasks={self._tasks} entries={len(self)}"
