"""The pages that packages carry: one to begin with, which has no word of the toolchain, and what it names."""

from __future__ import annotations

import re
from pathlib import Path

from library import TOP
from tools import ToolError
from tree import File, Tree, copied

README = Path(__file__).resolve().parent / "texts" / "README.md"
DOCS = TOP / "docs"
# From here on a page is about the repository, which a package has not.
REPOSITORY = "\n## In the repository\n"
TOOLCHAIN = re.compile(r"\brt\b|rattle|/opt/|\.ci/|tools/", re.IGNORECASE)
# What a page leads to, beside it: pages and pictures.
LINK = re.compile(r"\]\(([^):]+)\)")


def page(file: Path) -> File:
    """A page as far as it is about what a package has."""
    text = file.read_text().partition(REPOSITORY)[0].rstrip("\n")
    found = TOOLCHAIN.search(text)
    if found:
        raise ToolError(f"{file} names {found[0]!r}, which its packages do not have")
    return File(f"{text}\n".encode())


def named(text: str) -> list[str]:
    """The files that a page leads to, by their places beside it."""
    return list(dict.fromkeys(LINK.findall(text)))


def program_pages(folder: str) -> Tree:
    """The page of the program, and all that it leads to, below a folder."""
    readme = page(README)
    found: Tree = {f"{folder}/README.md": readme}
    return found | {f"{folder}/{name}": copied(DOCS / name) for name in named(readme.content.decode())}
