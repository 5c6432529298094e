"""The calls, the structures and the numbers of `include/timers.h`, for `timers.py`."""

from __future__ import annotations

import ctypes
import functools

from sched_timers._library import Library
from sched_timers._lines import LINE_ROOM, Copied
from sched_timers._numbers import MOMENT, NUMBER, SIZE, Flag, Rows
from sched_timers.errors import LibraryStatus

__all__ = ["ENDINGS", "ENDS", "LINE_ROOM", "RUNS", "Copied", "Counts", "End", "Ending", "Gone",
           "Ref", "Run", "Slot", "State", "Status", "Task", "library"]


class Status(LibraryStatus):
    """How a call ended."""

    DONE = 0, "done"
    NO_MEMORY = 1, "out of memory"
    NO_TIMERS = 2, "the timers are closed"
    HAS_TIMERS = 3, "the slot has timers already"
    WORKERS = 4, "the number of workers is not 1 to 255"
    SHUT = 5, "the timers are shut"
    ILLEGAL = 6, "a period is 0, a code too large, or there is no such policy"
    TOO_LONG = 7, "a span is above 2^62 nanoseconds"
    TOO_FAR = 8, "the moment is above 2^62 nanoseconds"
    NO_WORKER = 10, "there is no such worker"
    BUSY = 11, "the worker has a run under way"
    NOT_RUNNING = 12, "the worker has no run under way"
    IDLE = 13, "nothing is due"
    FULL = 14, "no number is left"
    NO_TASK = 15, "no such task"
    NUMBER = 16, "a line can not name the task"


class Slot(ctypes.Structure):
    """Room for timers. Its fields are the library's."""

    _fields_ = [("hidden", ctypes.c_void_p), ("full", ctypes.c_bool)]


class Ref(ctypes.Structure):
    """A task: the number of its submission, and its slot."""

    _fields_ = [("number", ctypes.c_uint64), ("slot", ctypes.c_uint32)]


class Run(ctypes.Structure):
    """A run that a worker has begun."""

    _fields_ = [("task", Ref), ("run", ctypes.c_uint64), ("due", ctypes.c_uint64),
                ("data", ctypes.c_uint64), ("worker", ctypes.c_uint32)]


class End(ctypes.Structure):
    """A run that a worker has ended."""

    _fields_ = [("task", Ref), ("run", ctypes.c_uint64), ("data", ctypes.c_uint64),
                ("value", ctypes.c_uint64), ("outcome", ctypes.c_uint32)]


class Ending(ctypes.Structure):
    """How a run that is to be ended ended."""

    _fields_ = [("value", ctypes.c_uint64), ("worker", ctypes.c_uint32),
                ("failed", ctypes.c_uint32)]


class Gone(ctypes.Structure):
    """A task that the last call ended."""

    _fields_ = [("task", Ref), ("data", ctypes.c_uint64)]


class Task(ctypes.Structure):
    """How far a task is."""

    _fields_ = [("run", ctypes.c_uint64), ("due", ctypes.c_uint64), ("phase", ctypes.c_uint32),
                ("cancelled", ctypes.c_uint32)]


class State(ctypes.Structure):
    """How far the timers are."""

    _fields_ = [("now", ctypes.c_uint64), ("numbers", ctypes.c_uint64), ("alive", ctypes.c_size_t),
                ("ended", ctypes.c_size_t), ("lines", ctypes.c_size_t),
                ("policies", ctypes.c_uint32), ("shut", ctypes.c_uint32),
                ("terminated", ctypes.c_uint32)]


class Counts(ctypes.Structure):
    """How many tasks there are."""

    _fields_ = [("queue", ctypes.c_size_t), ("running", ctypes.c_size_t),
                ("shut", ctypes.c_uint32), ("terminated", ctypes.c_uint32)]


# As in C, an end that is not aligned is filled up.
RUNS = Rows("@QI0QQQQI0Q", [MOMENT, NUMBER, MOMENT, MOMENT, MOMENT, NUMBER])
ENDS = Rows("@QI0QQQQI0Q", [MOMENT, NUMBER, MOMENT, MOMENT, MOMENT, NUMBER])
ENDINGS = Rows("@QII", [MOMENT, NUMBER, NUMBER])


@functools.cache
def library() -> Library:
    """The library, with the types of each call."""
    number, moment, size, out = NUMBER, MOMENT, SIZE, ctypes.POINTER
    span = data = value = moment
    return Library("libtimers", "timers_ref_", Slot, {
        "new": [number], "free": [], "reserve": [number],
        "schedule": [moment, span, data, out(Ref)], "execute": [moment, data, out(Ref)],
        "rate": [moment, span, span, data, out(Ref)],
        "fixed": [moment, span, span, data, out(Ref)],
        "cancel": [out(Ref), out(ctypes.c_uint32)],
        "poll": [moment, number, out(Run)],
        "poll_many": [moment, out(Run), size, out(ctypes.c_size_t)],
        "finish": [moment, number, value, out(End)], "fail": [moment, number, number, out(End)],
        "finish_many": [moment, out(Ending), size, out(End), size, out(ctypes.c_size_t)],
        "purge": [], "next_due": [out(ctypes.c_uint64)], "head_due": [out(ctypes.c_uint64)],
        "task_of": [out(Ref), out(Task)],
        "state_of": [out(State)], "ask": [moment, out(Counts)],
        "set_policy": [moment, number, Flag], "shutdown": [moment, out(ctypes.c_uint32)],
        "shutdown_now": [moment], "ended": [size, out(Gone)],
        "text": [size, out(ctypes.c_char), size, out(Copied)],
    })
