"""The calls, the structures and the numbers of `include/sched.h`, for `executor.py`."""

from __future__ import annotations

import ctypes
import functools

from sched_timers._library import Library
from sched_timers._lines import LINE_ROOM, Copied
from sched_timers._numbers import MOMENT, NUMBER, SIZE
from sched_timers.errors import LibraryStatus

__all__ = ["LINE_ROOM", "Copied", "Fault", "Run", "Slot", "State", "Status", "Task", "library"]


class Status(LibraryStatus):
    """How a call ended."""

    DONE = 0, "done"
    NO_MEMORY = 1, "out of memory"
    NO_EXECUTOR = 2, "the executor is closed"
    HAS_EXECUTOR = 3, "the slot has an executor already"
    NO_PLAN = 4, "the text is no plan"
    WORKERS = 5, "the number of workers is not 1 to 64"
    LIMIT = 6, "the limit on events is not 1 to 4,294,967,295"
    FULL = 7, "the limit on events is reached"
    UNKNOWN_TASK = 8, "no such task"
    NO_WORKER = 10, "the worker is above 255"
    NOT_STARTED = 11, "no run was started"


class Slot(ctypes.Structure):
    """Room for an executor. Its fields are the library's."""

    _fields_ = [("hidden", ctypes.c_void_p), ("full", ctypes.c_bool)]


class Fault(ctypes.Structure):
    """What is wrong with a plan's text, and where."""

    _fields_ = [("kind", ctypes.c_uint32), ("block", ctypes.c_uint32), ("call", ctypes.c_uint32)]


class State(ctypes.Structure):
    """How far an executor is."""

    _fields_ = [("now", ctypes.c_uint64), ("lines", ctypes.c_size_t), ("tasks", ctypes.c_size_t),
                ("taken", ctypes.c_uint32), ("ripe", ctypes.c_uint32)]


class Task(ctypes.Structure):
    """How far a task is."""

    _fields_ = [("phase", ctypes.c_uint32), ("run", ctypes.c_uint32),
                ("cancelled", ctypes.c_uint32)]


class Run(ctypes.Structure):
    """A run that was started."""

    _fields_ = [("run", ctypes.c_uint64), ("due", ctypes.c_uint64), ("task", ctypes.c_uint32),
                ("worker", ctypes.c_uint32)]


@functools.cache
def library() -> Library:
    """The library, with the types of each call."""
    out = ctypes.POINTER
    return Library("libsched", "sched_ref_", Slot, {
        "new": [ctypes.c_char_p, SIZE, NUMBER, MOMENT, out(Fault)], "free": [],
        "clock": [MOMENT], "start": [NUMBER], "finish": [NUMBER, MOMENT],
        "fail": [NUMBER, NUMBER], "cancel": [NUMBER],
        "text": [SIZE, out(ctypes.c_char), SIZE, out(Copied)],
        "state_of": [out(State)], "task_of": [NUMBER, out(Task)], "started": [out(Run)],
    })
