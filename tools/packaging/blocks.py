"""The parts of a text that is laid out by indentation, as those below the options of the program's help.

A paragraph stands at the margin. What stands deeper below it is a list, whose rows have a term, and behind two spaces or on deeper
lines what is said of it; or, where no row says anything of its term, lines that are to stay as they are.
"""

from __future__ import annotations

import re
from collections.abc import Iterator
from dataclasses import dataclass
from itertools import groupby

ROW = re.compile(r"(\S(?:.*?\S)?) {2,}(\S.*)")


@dataclass(frozen=True)
class Paragraph:
    """Lines that are filled."""
    text: str


@dataclass(frozen=True)
class Verbatim:
    """Lines that stay as they are."""
    lines: list[str]


@dataclass(frozen=True)
class Row:
    """A term, and what is said of it."""
    term: str
    body: list[Block]


@dataclass(frozen=True)
class Listing:
    """Terms in their order."""
    rows: list[Row]


Block = Paragraph | Verbatim | Listing


def depth(line: str) -> int:
    """How many spaces stand in front of a line."""
    return len(line) - len(line.lstrip(" "))


def row(head: str, below: list[str]) -> Row:
    """The row of a line, and of the deeper lines below it."""
    words = ROW.fullmatch(head)
    if words:
        term, margin, said = words[1], words.start(2), [words[2]]
    else:
        term, margin, said = head, min(map(depth, below), default=0), []
    return Row(term, list(blocks([*said, *(line[min(depth(line), margin):] for line in below)])))


def listing(lines: list[str]) -> Listing | Verbatim:
    """The list of lines, each of which stands as deep as the first of them or deeper."""
    margin = depth(lines[0])
    lines = [line[min(depth(line), margin):] for line in lines]
    starts = [place for place, line in enumerate(lines) if depth(line) == 0]
    ends = [*starts[1:], len(lines)]
    rows = [row(lines[start], lines[start + 1:end]) for start, end in zip(starts, ends)]
    return Listing(rows) if any(row.body for row in rows) else Verbatim(lines)


def blocks(lines: list[str]) -> Iterator[Block]:
    """The parts of lines none of which is empty, in their order."""
    for is_deep, group in groupby(lines, key=lambda line: depth(line) > 0):
        yield listing(list(group)) if is_deep else Paragraph(" ".join(group))


def parts(text: str) -> list[list[Block]]:
    """The parts between the empty lines of a text."""
    return [list(blocks(part.split("\n"))) for part in text.split("\n\n") if part]
