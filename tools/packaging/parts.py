"""What the packages are made of: the program, the libraries, the runner, their pages, and the examples; and where each of it is
put."""

from __future__ import annotations

import os
import shutil
import tempfile
from dataclasses import dataclass
from functools import cached_property
from pathlib import Path

import library
import licences
import machine
import manual
import pages
from library import TOP
from machine import Machine
from tools import ToolError, output
from tree import File, Link, Tree, copied

PROGRAM = TOP / "crates" / "sched" / "out" / "sched"
RUNNER = TOP / "examples" / "runner"
ANY_PYTHON, SYSTEM_PYTHON = b"#!/usr/bin/env python3\n", b"#!/usr/bin/python3\n"
HEADERS = ("delay_queue.h", "sched.h", "sched_version.h", "timers.h")
LIBRARY_CRATES = list(library.LIBRARIES)

# The tracked files of the examples that a package has, as `git ls-files` names them.
EXAMPLES = ("examples", ":!examples/embed/python", ":!examples/embed/rust", ":!examples/embed/tokio", ":!examples/embed/c/run*")
MEASURED = "Measured: the versions of the C library's symbols that each file takes, and each of its instructions.\n\n"


class Parts:
    """What packages of a version are made of. Each part is built as it is first asked for, so that a wheel needs no program."""

    def __init__(self, version: str) -> None:
        self.version = version
        self._folder = tempfile.TemporaryDirectory()

    @cached_property
    def moment(self) -> int:
        """That of the last commit, which files carry, in seconds; or the one that SOURCE_DATE_EPOCH names."""
        return int(os.environ.get("SOURCE_DATE_EPOCH") or output(["git", "-C", TOP, "log", "-1", "--format=%ct"]))

    @cached_property
    def maintainer(self) -> str:
        """Who made the last commit, with an address."""
        return output(["git", "-C", TOP, "log", "-1", "--format=%an <%ae>"]).strip()

    @property
    def soname(self) -> str:
        """The name under which programs look for the shared library: it changes where they have to be built anew."""
        return f"libsched.so.{self.version.split('.')[0]}"

    @cached_property
    def program(self) -> File:
        """The program."""
        return copied(self._program)

    @cached_property
    def program_machine(self) -> Machine:
        """Which machines run the program."""
        return machine.measured(self._program)

    @cached_property
    def pages(self) -> dict[str, bytes]:
        """The program's pages and completions, each by its place."""
        return {place: text.encode() for place, text in manual.files(PROGRAM, self.version).items()}

    @cached_property
    def objects(self) -> dict[str, File]:
        """The object of each library."""
        return {crate: copied(file) for crate, file in self._objects.items()}

    @cached_property
    def archive(self) -> File:
        """The archive of all libraries."""
        library.archive(list(self._objects.values()), self._place / "libsched.a")
        return copied(self._place / "libsched.a")

    @cached_property
    def shared(self) -> File:
        """The shared library of all libraries."""
        return File(self._shared.read_bytes())

    @cached_property
    def library_machine(self) -> Machine:
        """Which machines run the shared library."""
        return machine.measured(self._shared)

    @property
    def _place(self) -> Path:
        return Path(self._folder.name)

    @cached_property
    def _program(self) -> Path:
        shutil.copy2(program(), self._place / "sched")
        output(["strip", self._place / "sched"])
        return self._place / "sched"

    @cached_property
    def _objects(self) -> dict[str, Path]:
        return library.whole_objects(self._place)

    @cached_property
    def _shared(self) -> Path:
        library.shared(list(self._objects.values()), self._place / "libsched.so", self.soname)
        return self._place / "libsched.so"


@dataclass(frozen=True)
class Places:
    """Where a package has its files. `headers` is a folder of its own: `sched.h` is a name of the C library too. `zsh` is the folder of
    completions in which zsh looks: another one below /usr/local than Debian's below /usr."""
    front: str
    libraries: str
    zsh: str

    def __truediv__(self, place: str) -> str:
        return f"{self.front}{place}"

    @property
    def headers(self) -> str:
        """The folder of the headers."""
        return self / "include/sched"

    @property
    def documents(self) -> str:
        """The folder that has what is to be read, but for the folder of each package in it."""
        return self / "share/doc"


def program() -> Path:
    """The built program, which needs the C library alone."""
    if not PROGRAM.exists():
        raise ToolError(f"{PROGRAM} is not there: `.ci/run` makes it, or `rt run -- --help` in {PROGRAM.parent.parent}")
    needed = library.needed(PROGRAM)
    if needed != {library.C_LIBRARY}:
        raise ToolError(f"{PROGRAM.name} needs {sorted(needed)}, and not {library.C_LIBRARY} alone")
    return PROGRAM


def program_tree(parts: Parts, places: Places) -> Tree:
    """The program, its pages and its completions."""
    return {
        places / "bin/sched": parts.program,
        places / "share/man/man1/sched.1": File(parts.pages["man/man1/sched.1"]),
        places / "share/man/man5/sched-plan.5": File(parts.pages["man/man5/sched-plan.5"]),
        places / "share/bash-completion/completions/sched": File(parts.pages["completions/sched.bash"]),
        places / f"share/zsh/{places.zsh}/_sched": File(parts.pages["completions/_sched"]),
        places / "share/fish/vendor_completions.d/sched.fish": File(parts.pages["completions/sched.fish"]),
    }


def runner_tree(parts: Parts, places: Places, python: bytes = ANY_PYTHON) -> Tree:
    """The runner of jobs: a command, which names its first module, and its page."""
    folder = places / "share/sched-runner"
    names = output(["git", "-C", RUNNER, "ls-files", ":(glob)*.py", ":!test.py"]).split()
    tree: Tree = {f"{folder}/{name}": copied(RUNNER / name) for name in names}
    first = copied(RUNNER / "runner.py")
    return tree | {
        f"{folder}/runner.py": File(python + first.content.removeprefix(ANY_PYTHON), first.is_program),
        places / "bin/sched-runner": Link("../share/sched-runner/runner.py"),
        places / "share/man/man1/sched-runner.1": File(parts.pages["man/man1/sched-runner.1"]),
    }


def shared_tree(parts: Parts, places: Places) -> Tree:
    """The shared library, under the name that programs look for."""
    full = f"libsched.so.{parts.version}"
    return {f"{places.libraries}/{full}": parts.shared, f"{places.libraries}/{parts.soname}": Link(full)}


def development_tree(parts: Parts, places: Places, prefix: str) -> Tree:
    """What C programs are built with: headers, the archive, the name of the shared library for linkers, and `sched.pc`."""
    tree: Tree = {f"{places.headers}/{name}": copied(TOP / "include" / name) for name in HEADERS}
    tree[f"{places.libraries}/libsched.a"] = parts.archive
    tree[f"{places.libraries}/libsched.so"] = Link(parts.soname)
    tree[f"{places.libraries}/pkgconfig/sched.pc"] = File(package_config(parts, places, prefix).encode())
    return tree


def package_config(parts: Parts, places: Places, prefix: str) -> str:
    """What `pkg-config` says. `<sched/timers.h>` names a header; "timers.h" does too, by -iquote, which hides no header of the C
    library, as -I would."""
    libraries = places.libraries.removeprefix(places.front)
    return f"""prefix={prefix}
includedir=${{prefix}}/include
libdir=${{prefix}}/{libraries}

Name: sched
Description: A scheduled executor, a delay queue, and an executor of plans, proved
Version: {parts.version}
Cflags: -I${{includedir}} -iquote${{includedir}}/sched
Libs: -L${{libdir}} -lsched
"""


def example_tree(folder: str) -> Tree:
    """The examples: plans with events and traces, and those in C."""
    names = output(["git", "-C", TOP, "ls-files", *EXAMPLES]).split()
    return {f"{folder}/{name}": copied(TOP / name) for name in names}


def library_machines(parts: Parts) -> str:
    """Which machines run the libraries."""
    return f"{MEASURED}the library libsched: {parts.library_machine}\n"


def machines(parts: Parts) -> str:
    """Which machines run the program and the libraries."""
    return f"{MEASURED}the program sched: {parts.program_machine}\nthe library libsched: {parts.library_machine}\n"


def document_tree(parts: Parts, folder: str) -> Tree:
    """What is to be read."""
    return pages.program_pages(folder) | {
        f"{folder}/EMBEDDING.md": copied(TOP / "docs" / "EMBEDDING.md"),
        f"{folder}/MACHINES": File(machines(parts).encode()),
    }


def notices(crates: list[str]) -> File:
    """The licences of what some crates are made of."""
    return File(licences.notices(crates).encode())
