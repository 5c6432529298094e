"""What the errors of this package have in common.

Each refusal of a library is an exception of its own, a `SchedError`, and beside it what Python
itself would raise: a `ValueError` where a number is out of its range, a `LookupError` where
nothing has a name, a `MemoryError`, an `OverflowError`, or a `RuntimeError`.

>>> from sched_timers import ClosedError, DelayQueue, SchedError
>>> queue = DelayQueue(3)
>>> queue.close()
>>> try:
...     len(queue)
... except ClosedError as refused:
...     print(refused, isinstance(refused, SchedError), isinstance(refused, ValueError))
the queue is closed True True
"""

from __future__ import annotations

from enum import IntEnum
from typing import ClassVar, TypeVar

__all__ = ["ClosedError", "LibraryStatus", "SchedError"]

Self = TypeVar("Self", bound="LibraryStatus")
Refusal = TypeVar("Refusal", bound="SchedError")


class LibraryStatus(IntEnum):
    """The numbers by which the calls of a library answer, each with its meaning in words."""

    text: str

    def __new__(cls: type[Self], number: int, text: str) -> Self:
        """A member, which is its number."""
        member = int.__new__(cls, number)
        member._value_ = number
        member.text = text
        return member


class SchedError(Exception):
    """A call that a library refused: its class, and `status`, say why."""

    status: ClassVar[LibraryStatus]

    def __str__(self) -> str:
        return self.status.text

    def __repr__(self) -> str:
        return f"{type(self).__name__}({str(self)!r})"


class ClosedError(SchedError, ValueError):
    """A call on what is closed, as of a file that is closed."""


def by_status(*kinds: type[Refusal]) -> dict[int, type[Refusal]]:
    """The class of each status that is a refusal."""
    return {kind.status: kind for kind in kinds}
