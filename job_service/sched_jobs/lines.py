"""In which line of a text of TOML a table or a key stands."""

import tomllib
from collections.abc import Iterator
from dataclasses import dataclass

MOST_LINES = 1_000


@dataclass(frozen=True)
class Statement:
    """A header, or a key with its value: where it begins and ends, its text, and what it is alone."""

    first: int
    last: int
    text: str
    tree: dict[str, object]


def statements(text: str) -> Iterator[Statement]:
    """What a document is made of, up to something very long. A front of a statement ends within a text or an array, and is no
    document."""
    piece, first = "", 1
    for number, line in enumerate(text.split("\n"), 1):
        piece += line + "\n"
        try:
            yield Statement(first, number, piece, tomllib.loads(piece))
        except (tomllib.TOMLDecodeError, RecursionError):
            if number - first == MOST_LINES:
                return
            continue
        piece, first = "", number + 1


def header_of(statement: Statement) -> tuple[str, ...] | None:
    """The names of a header, and none of a key."""
    if not statement.text.lstrip().startswith("["):
        return None
    names, tree = [], statement.tree
    while tree:
        [(name, below)] = tree.items()
        names.append(name)
        tree = below[0] if isinstance(below, list) else below
    return tuple(names)


def has(tree: object, names: tuple[str, ...]) -> bool:
    """Whether a tree leads on by these names."""
    for name in names:
        if not isinstance(tree, dict) or name not in tree:
            return False
        tree = tree[name]
    return True


def line_of(text: str, path: tuple[str, ...]) -> int | None:
    """The first line of a document that names this table or key, and none where that is not sure: a key behind another one
    may stand in any line of an inline table."""
    table: tuple[str, ...] = ()
    for statement in statements(text):
        header = header_of(statement)
        if header is not None:
            table = header
            if table[: len(path)] == path:
                return statement.first
        elif path[: len(table)] == table and has(statement.tree, path[len(table):]):
            is_sure = statement.first == statement.last or len(path) == len(table) + 1
            return statement.first if is_sure else None
    return None
