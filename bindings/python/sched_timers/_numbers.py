"""Numbers and flags as a library takes them, tested before it is called.

ctypes alone would cut off what does not fit, and take any object as a flag.
"""

from __future__ import annotations

import ctypes
import struct
from collections.abc import Iterable, Iterator, Sequence
from itertools import chain, starmap
from operator import index
from typing import Any, SupportsIndex


def whole(number: SupportsIndex) -> int:
    """A whole number, which is whatever can be an index, such as a member of an IntEnum.

    A bool is none, though it could be an index: where a number is wanted, it is an argument at a
    wrong place.

    >>> whole(7)
    7
    >>> whole(True)
    Traceback (most recent call last):
    TypeError: a whole number is wanted, not True
    >>> whole(0.5)
    Traceback (most recent call last):
    TypeError: 'float' object cannot be interpreted as an integer
    """
    if isinstance(number, bool):
        raise TypeError(f"a whole number is wanted, not {number}")
    return index(number)


class Whole:
    """An argument that is a whole number of this type of ctypes, which has no sign.

    >>> NUMBER.checked(4_294_967_296)
    Traceback (most recent call last):
    ValueError: 4294967296 is not 0 to 4294967295
    """

    def __init__(self, kind: type[Any]) -> None:
        self._kind = kind
        self._end = 1 << 8 * ctypes.sizeof(kind)

    def checked(self, number: SupportsIndex) -> int:
        """The number, where it is one that fits."""
        checked = whole(number)
        if not 0 <= checked < self._end:
            raise ValueError(f"{checked} is not 0 to {self._end - 1}")
        return checked

    def from_param(self, number: SupportsIndex) -> Any:
        """The number as ctypes hands it over."""
        if type(number) is int and 0 <= number < self._end:   # as most are, and soon seen
            return self._kind(number)
        return self._kind(self.checked(number))


NUMBER, MOMENT, SIZE = Whole(ctypes.c_uint32), Whole(ctypes.c_uint64), Whole(ctypes.c_size_t)


class Flag:
    """An argument that is a bool."""

    @staticmethod
    def checked(value: bool) -> bool:
        """The value, where it is a bool."""
        if not isinstance(value, bool):
            raise TypeError(f"a bool is wanted, not {value!r}")
        return value

    @classmethod
    def from_param(cls, value: bool) -> ctypes.c_bool:
        """The value as ctypes hands it over."""
        return ctypes.c_bool(cls.checked(value))


class Rows:
    """Structures of whole numbers, as bytes: `struct` makes and reads many of them much faster
    than ctypes does."""

    def __init__(self, form: str, kinds: Sequence[Whole]) -> None:
        self._struct, self._kinds = struct.Struct(form), kinds
        self.size = self._struct.size

    def packed(self, rows: Iterable[Sequence[SupportsIndex]]) -> bytes:
        """The bytes of structures, one for each row of numbers.

        >>> Rows("@QI", [MOMENT, NUMBER]).packed([(1, 2)]).hex()
        '010000000000000002000000'
        """
        numbers = list(rows)
        if bool in map(type, chain.from_iterable(numbers)):
            self._check(numbers)
        try:
            return b"".join(starmap(self._struct.pack, numbers))
        except struct.error as error:
            fault = error
        self._check(numbers)   # raises the error for which `struct` has put its own
        raise fault

    def first(self, packed: ctypes.Structure) -> tuple[Any, ...]:
        """The numbers of one structure."""
        return self._struct.unpack(packed)

    def unpacked(self, packed: bytes) -> Iterator[Any]:
        """The tuple of numbers of each structure of these bytes."""
        return self._struct.iter_unpack(packed)

    def _check(self, rows: list[Sequence[SupportsIndex]]) -> None:
        """Raises what is wrong with the first number that is not as it has to be."""
        for row in rows:
            if len(row) != len(self._kinds):
                raise ValueError(f"{len(self._kinds)} numbers are wanted, not {row!r}")
            for kind, number in zip(self._kinds, row):
                kind.checked(number)
