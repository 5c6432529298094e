"""The calls, the structures and the numbers of `include/delay_queue.h`, for `delay_queue.py`."""

from __future__ import annotations

import ctypes
import functools

from sched_timers._library import Library
from sched_timers._numbers import MOMENT, NUMBER, SIZE, Rows
from sched_timers.errors import LibraryStatus


class Status(LibraryStatus):
    """How a call ended."""

    DONE = 0, "done"
    NO_ENTRY = 1, "no such entry"
    NO_MEMORY = 2, "out of memory"
    NO_QUEUE = 3, "the queue is closed"
    HAS_QUEUE = 4, "the slot has a queue already"
    UNKNOWN_TASK = 5, "no such task"
    HAS_ENTRY = 6, "the task has an entry already"


class Slot(ctypes.Structure):
    """Room for a queue. Its fields are the library's."""

    _fields_ = [("hidden", ctypes.c_void_p), ("tasks", ctypes.c_uint32), ("full", ctypes.c_bool)]


class Entry(ctypes.Structure):
    """When a task is due, and its number."""

    _fields_ = [("due", ctypes.c_uint64), ("task", ctypes.c_uint32)]


ENTRIES = Rows(f"=QI{ctypes.sizeof(Entry) - 12}x", [MOMENT, NUMBER])


@functools.cache
def library() -> Library:
    """The library, with the types of each call."""
    out = ctypes.POINTER
    entry, count, due = out(Entry), out(ctypes.c_size_t), out(ctypes.c_uint64)
    return Library("libdelay_queue", "dq_ref_", Slot, {
        "new": [NUMBER], "free": [], "remove": [NUMBER], "contains": [NUMBER], "peek": [entry],
        "due_of": [NUMBER, due], "len": [count], "touched": [due],
        "insert_many": [entry, SIZE, count], "poll_many": [MOMENT, entry, SIZE, count],
    })
