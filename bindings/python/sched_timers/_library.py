"""A shared library whose calls take a slot and whole numbers, and answer a status; and what lives
in such a slot."""

from __future__ import annotations

import ctypes
import os
import weakref
from collections.abc import Callable, Mapping, Sequence
from pathlib import Path
from typing import Any, ClassVar, Protocol, TypeVar

from sched_timers.errors import ClosedError, SchedError

Self = TypeVar("Self", bound="Slotted")

DONE = 0   # the status of a call that did what it says, in each library
FOLDER = Path(__file__).resolve().parent / "out"


class Library:
    """The calls of a library, by their names without `front`, each with the types of what follows
    the slot.

    It is the file that the variable of its name in capitals names, such as LIBTIMERS, or else
    the one in `out` beside this module. It is loaded as PyDLL, which holds the interpreter's lock
    during a call, so that no two threads are in one at a time. It needs an interpreter that has
    such a lock.
    """

    def __init__(self, name: str, front: str, slot: type[ctypes.Structure],
                 types: Mapping[str, Sequence[Any]]) -> None:
        library = _loaded(name)
        self.slot = slot
        self._calls: dict[str, Callable[..., int]] = {}
        self._types = {call: [ctypes.POINTER(slot), *words] for call, words in types.items()}
        for name, words in self._types.items():
            call = self._calls[name] = getattr(library, front + name)
            call.argtypes, call.restype = words, ctypes.c_uint32

    def __getitem__(self, name: str) -> Callable[..., int]:
        return self._calls[name]

    def call(self, name: str, *words: Any) -> int:
        """The status that a call answers. Where an argument is not as it has to be, a TypeError
        or a ValueError says so, and no call is made."""
        try:
            return self._calls[name](*words)
        except ctypes.ArgumentError as error:
            fault = error
        for kind, word in zip(self._types[name], words):
            kind.from_param(word)   # raises the error for which ctypes has put its own
        raise fault


def _loaded(name: str) -> ctypes.PyDLL:
    """The shared library of this name."""
    variable = name.upper()
    path = os.environ.get(variable) or FOLDER / f"{name}.so"
    try:
        return ctypes.PyDLL(str(path))
    except OSError as fault:
        hint = f"docs/EMBEDDING.md says how it is made, and {variable} names one elsewhere"
        raise OSError(f"{fault}: {hint}") from fault


class Finalizer(Protocol):
    """What frees an object once: a `weakref.finalize`."""

    atexit: bool

    @property
    def alive(self) -> bool:
        """Whether it has not freed it yet."""

    def __call__(self) -> object:
        """Frees it, where it has not yet."""


class Slotted:
    """What lives in a slot of a library, and is freed: by `close`, at the end of a `with`, or else
    with its last name or at the end of the program."""

    _errors: ClassVar[Mapping[int, type[SchedError]]]   # those of the statuses that are refusals
    _closed_error: ClassVar[type[ClosedError]]
    _absent: ClassVar[int]                              # the status of what finds nothing
    _free: Finalizer | None = None

    def __init__(self, library: Library) -> None:
        self._library, self._slot = library, library.slot()

    @property
    def closed(self) -> bool:
        """Whether it is closed: each call but `close` raises a `ClosedError` then."""
        return self._free is None or not self._free.alive

    def close(self) -> None:
        """Frees it. A second call does nothing."""
        if self._free is not None:
            self._free()

    def __enter__(self: Self) -> Self:
        self._check_open()
        return self

    def __exit__(self, *_: object) -> None:
        self.close()

    def __repr__(self) -> str:
        return f"<{type(self).__name__} {'closed' if self.closed else self._shown()}>"

    def _check_open(self) -> None:
        """Raises the error of what is closed."""
        if self.closed:
            raise self._closed_error

    def _shown(self) -> str:
        """What `repr` tells of one that is not closed."""
        raise NotImplementedError

    def _frees(self, at_exit: bool = True) -> None:
        """From now on the slot is full, and to be freed, at the end of the program too, unless
        that is left to the system."""
        self._free = weakref.finalize(self, self._library["free"], self._slot)
        self._free.atexit = at_exit

    def _call(self, name: str, *words: Any) -> int:
        """The status that a call on the slot answers."""
        return self._library.call(name, self._slot, *words)

    def _tell(self, name: str, *words: Any) -> None:
        """A call that has to be done."""
        self._done(self._call(name, *words))

    def _finds(self, name: str, *words: Any) -> bool:
        """Whether a call found what it looks for."""
        status = self._call(name, *words)
        if status != self._absent:
            self._done(status)
        return status == DONE

    def _done(self, status: int, *more: object) -> None:
        """Raises the error of a call that was not done, with what more is told of it."""
        if status == DONE:
            return
        if status not in self._errors:
            raise RuntimeError(f"the library answers {status}, for which there is no word here")
        raise self._errors[status](*more)
