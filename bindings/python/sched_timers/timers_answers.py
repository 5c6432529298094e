"""What timers are told, and what they answer."""

from __future__ import annotations

from enum import IntEnum
from typing import NamedTuple

__all__ = ["Counts", "Effect", "End", "Ending", "Gone", "Outcome", "Phase", "Policy", "Run",
           "State", "TaskRef", "TaskState"]


class Outcome(IntEnum):
    """What becomes of a task whose run has ended."""

    DONE = 0      # its one run ended with a value
    FAILED = 1    # the run failed, and it was not cancelled: no run comes after it
    AGAIN = 2     # it waits for its next run
    DROPPED = 3   # it was cancelled as it ran, however the run ended
    ENDED = 4     # the timers are shut, and the policies let no run of it come after this one, or
                  # were shut at once


class Effect(IntEnum):
    """What a cancel did. It is true where the task is cancelled by it.

    >>> [effect.name for effect in Effect if effect]
    ['YES']
    """

    NONE = 0   # nothing: the submission was rejected
    NO = 1     # nothing: the task was cancelled before, or is over
    YES = 2    # the task waited, or is run, and is cancelled now

    def __bool__(self) -> bool:
        return self is Effect.YES


class Phase(IntEnum):
    """How far a task is."""

    GONE = 0      # it is over, or was cancelled and left the queue, or its submission was rejected
    WAITING = 1   # it waits for a run
    RUNNING = 2   # a run of it is under way
    KEPT = 3      # it was cancelled while it waited, and stands in the queue still


class Policy(IntEnum):
    """The policies, which are those of ScheduledThreadPoolExecutor."""

    CONTINUE = 0   # periodic tasks run on after an orderly shutdown: false at first
    EXECUTE = 1    # tasks that wait for one run, and are not due yet, have it after an orderly
                   # shutdown: true at first
    REMOVE = 2     # a task that is cancelled while it waits leaves the queue at once: false at
                   # first


class TaskRef(NamedTuple):
    """A task, as its submission answers it. It names this task still once that is over, and no
    other."""

    number: int   # of its submission, from 0 on
    slot: int     # which no other task has while something may come of this one


class Run(NamedTuple):
    """A run that a worker has begun."""

    task: TaskRef
    run: int      # its number, 0 for the first one of its task
    due: int      # the moment at which it was due, at most 2**63
    data: int     # what was given with the submission
    worker: int   # who has it under way


class End(NamedTuple):
    """A run that a worker has ended."""

    task: TaskRef
    run: int
    data: int
    value: int    # of a run that is done, the code of one that failed, the moment at which the
                  # next one is due; else 0
    outcome: Outcome


class Ending(NamedTuple):
    """How the run of a worker ended: with a value below 2**64, or where it failed with a code
    below 2**32."""

    worker: int
    value: int = 0
    failed: bool = False


class Gone(NamedTuple):
    """A task that the last call ended."""

    task: TaskRef
    data: int


class TaskState(NamedTuple):
    """How far a task is."""

    run: int          # the number of the run that it waits for, or that is under way; 0 where the
                      # task is gone
    due: int          # the moment at which that run is due; 0 where the task is gone
    phase: Phase
    cancelled: bool   # whether it was cancelled, and is not gone


class State(NamedTuple):
    """How far the timers are."""

    now: int       # the greatest moment so far
    numbers: int   # how many submissions were given a number
    alive: int     # how many tasks stand in the queue, or have a run under way
    ended: int     # how many tasks the last call ended, but for the one whose run was finished
    lines: int     # how many lines the last call has
    policies: frozenset[Policy]   # those that are true
    shut: bool                    # whether a call to shut down was made
    terminated: bool              # whether they are shut, and no task is alive


class Counts(NamedTuple):
    """How many tasks there are, as a call asks."""

    queue: int     # how many tasks wait, or are kept in the queue after a cancel
    running: int   # how many tasks have a run under way
    shut: bool
    terminated: bool
