"""The Rust crate as source, with the archive beside it that it is linked with, and the programs of examples/embed/rust as its examples."""

from __future__ import annotations

from pathlib import Path

import pages
import parts as made
from library import TOP
from parts import LIBRARY_CRATES, Parts
from tools import ToolError
from tree import File, Tree, copied, tarred

SOURCE = TOP / "bindings" / "rust"
PROGRAMS = TOP / "examples" / "embed" / "rust"

# The files of the crate, as patterns below its folder, and the folder in which it looks for archives.
FILES = ("Cargo.toml", "Cargo.lock", "build.rs", "src/**/*.rs", "tests/*.rs")
# Those of the crate for tokio, which stands in a folder of it.
TOKIO = "tokio"
TOKIO_FILES = ("Cargo.toml", "src/**/*.rs", "tests/*.rs")
README = "README.md"
ARCHIVES = "archives"


def name(parts: Parts) -> str:
    """The folder that the archive unpacks to."""
    return f"sched-rust-{parts.version}"


def matching(folder: Path, pattern: str) -> Tree:
    """The files of a folder that a pattern names, which has to name some."""
    paths = sorted(folder.glob(pattern))
    if not paths:
        raise ToolError(f"{folder} has no {pattern}")
    return {str(path.relative_to(folder)): copied(path) for path in paths}


def tree(parts: Parts) -> Tree:
    """All files."""
    found = {f"examples/{name}": entry for name, entry in matching(PROGRAMS / "src" / "bin", "*.rs").items()}
    for pattern in [*FILES, *(f"{TOKIO}/{name}" for name in TOKIO_FILES)]:
        found |= matching(SOURCE, pattern)
    found |= {name: pages.page(SOURCE / name) for name in (README, f"{TOKIO}/{README}")}
    found[f"{ARCHIVES}/libsched.a"] = parts.archive
    found["NOTICES"] = made.notices(LIBRARY_CRATES)
    found["MACHINES"] = File(made.library_machines(parts).encode())
    return found


def package(parts: Parts) -> dict[str, bytes]:
    """The archive, by its name."""
    return {f"{name(parts)}.tar.gz": tarred(tree(parts), parts.moment, f"{name(parts)}/")}
