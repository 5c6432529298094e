"""A line of a file of the store: an object of JSON behind its sum, so that a torn or decayed line is known as one."""

import json
import zlib
from typing import Any

SUM_DIGITS = 8


class NoLine(ValueError):
    """This is no whole line."""


def written(value: object) -> bytes:
    text = json.dumps(value, separators=(",", ":"), ensure_ascii=True).encode()
    return b"%08x %s\n" % (zlib.crc32(text), text)


def read(line: bytes) -> Any:
    """The object of a line, with its newline."""
    total, _, text = line.partition(b" ")
    if len(total) != SUM_DIGITS or not text.endswith(b"\n") or b"%08x" % zlib.crc32(text[:-1]) != total:
        raise NoLine
    return json.loads(text)


def whole_front(content: bytes) -> tuple[list[Any], int]:
    """The objects of the whole lines that a file begins with, and how many bytes these are."""
    values, size = [], 0
    for line in content.splitlines(keepends=True):
        try:
            values.append(read(line))
        except NoLine:
            break
        size += len(line)
    return values, size
