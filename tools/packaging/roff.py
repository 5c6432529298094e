"""Pages for `man`: texts, and the parts of `blocks.py`, as lines of roff."""

from __future__ import annotations

import re
import textwrap
from collections.abc import Iterable, Iterator

from blocks import Block, Listing, Paragraph, Verbatim

ESCAPES = str.maketrans({"\\": r"\e", "-": r"\-", "'": r"\(aq", "^": r"\(ha", "`": r"\(ga", "~": r"\(ti", '"': r"\(dq"})
STAND_IN = re.compile(r"(?<![\w'\"])[A-Z]+(?![\w'\"])")
WIDTH = 78


def escaped(text: str) -> str:
    """The text as roff writes it, each sign as it is typed."""
    return text.translate(ESCAPES)


def line(text: str) -> str:
    """A line that begins no request."""
    return rf"\&{text}" if text.startswith((".", "'")) else text


def lines(text: str) -> Iterator[str]:
    """A paragraph that was escaped, each sentence on lines of its own."""
    for sentence in re.split(r"(?<=[.:;]) (?=\S)", text):
        for part in textwrap.wrap(sentence, WIDTH, break_long_words=False, break_on_hyphens=False):
            yield line(part)


def term(text: str) -> str:
    """What is typed as it stands is bold, and words in capitals, which stand for others, are slanted."""
    parts, end = [], 0
    for word in STAND_IN.finditer(text):
        parts += [rf"\fB{escaped(text[end:word.start()])}\fR", rf"\fI{word[0]}\fR"]
        end = word.end()
    return "".join([*parts, rf"\fB{escaped(text[end:])}\fR"]).replace(r"\fB\fR", "")


def entries(rows: Iterable[tuple[str, list[str]]]) -> Iterator[str]:
    """A list of terms that were marked, and the lines of what is said of each. A term of which nothing is said stands alone."""
    for head, body in rows:
        yield from [".TP", line(head), *body] if body else [".PP", line(head)]


def rendered(parts: Iterable[Block], is_first: bool = True) -> Iterator[str]:
    """The parts of a text. No space stands before the first of them."""
    for part in parts:
        match part:
            case Paragraph(text):
                yield from [*([] if is_first else [".PP"]), *lines(escaped(text))]
            case Verbatim(kept):
                yield from [".PP", ".RS 4", ".EX", *(line(escaped(text)) for text in kept), ".EE", ".RE"]
            case Listing(rows):
                yield from entries((term(row.term), list(body(row.body))) for row in rows)
        is_first = False


def body(parts: list[Block]) -> Iterator[str]:
    """What is said of a term: its first paragraph beside it, and the rest below, as deep."""
    if parts:
        yield from rendered(parts[:1])
    if parts[1:]:
        yield from [".RS", *rendered(parts[1:], False), ".RE"]


def page(name: str, section: int, version: str, date: str, group: str, sections: Iterable[tuple[str, list[str]]]) -> str:
    """A page with its sections, those that have no lines left out."""
    head = rf""".TH {escaped(name).upper()} {section} {date} "sched {version}" "{group}" """.rstrip()
    written = [head]
    for heading, text in sections:
        if text:
            written += [f'.SH "{heading}"', *text]
    return "\n".join(written) + "\n"
