"""The licences of what the program and the libraries are made of, and whose owners ask that their notices go along."""

from __future__ import annotations

import re
from collections.abc import Callable
from pathlib import Path

from library import TOP, kit
from tools import ToolError

# Where a crate has both of these, it leaves the choice, and the first one is taken. Each other file of a licence goes along.
CHOICES = ("LICENSE-MIT", "LICENSE-APACHE")
OWN = """Neither the repository of sched nor the toolchain, Rattle, names a licence for its own files. Of the toolchain's own files
its library and the archive liblibc_c.a are built in. So nothing here says that this may be passed on, changed or sold: that is for
those to say who hold the rights.
"""

OWN_ALONE = """The repository of sched names no licence for its own files. So nothing here says that this may be passed on, changed or
sold: that is for those to say who hold the rights.
"""


def uses() -> dict[str, list[str]]:
    """What each crate of the repository stands on."""
    lines = [line.split(":", 1) for line in (TOP / "crates.txt").read_text().splitlines() if ":" in line and not line.startswith("#")]
    return {front.split()[0]: below.split() for front, below in lines}


def right_below(name: str, own: dict[str, list[str]], folder: Path) -> set[str]:
    """What a crate stands on, without what that stands on."""
    if name in own:
        return set(own[name])
    form = folder / "rlibs" / f"{name}.rlib" / "format"
    if not form.exists():
        raise ToolError(f"{form} is not there")
    return set(re.findall(r"^dep (\w+)$", form.read_text(), re.MULTILINE))


def below(crates: list[str], folder: Path) -> set[str]:
    """The toolchain's crates on which some crates of the repository stand, however far below them."""
    own, left = uses(), list(crates)
    found: set[str] = set()
    while left:
        names = right_below(left.pop(), own, folder) - found
        left += names
        found |= names
    return found - set(own)


def chosen(crate: Path) -> list[Path]:
    """The files of a crate's licences."""
    taken, left = (crate / name for name in CHOICES)
    return [file for file in sorted(crate.glob("LICENSE*")) if file != left or not taken.exists()]


def headed(name: str, text: str) -> str:
    """The text of a licence, below a line and the name of the crate that has it."""
    stripped = text.strip("\n")
    return f"{'-' * 72}\n{name}\n\n{stripped}\n"


def whole(text: str) -> str:
    """A licence as its file has it."""
    return text


def notices(crates: list[str], told: Callable[[str], str] = whole) -> str:
    """The licences of the toolchain's crates on which some crates of the repository stand, each as it is to be told."""
    folder = kit()
    found = {name: chosen(folder / "rattle" / name) for name in sorted(below(crates, folder))}
    texts = [headed(name, told(file.read_text())) for name, licences in found.items() for file in licences]
    if not texts:
        raise ToolError(f"no licence is found below {folder}")
    names = ", ".join(name for name, licences in found.items() if licences)
    return "\n".join([OWN, f"These parts of the toolchain come from others, and each has its licence below: {names}.\n", *texts])
