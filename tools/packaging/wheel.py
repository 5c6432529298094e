"""The package in Python: the wheel, with the modules and the shared libraries that they load, and the source archive beside it.

It is `sched_timers`, since Python's own library has a module `sched`. A wheel has no links, so each library that the modules name is
one of its own, of the one proved archive that it needs.
"""

from __future__ import annotations

import tempfile
from pathlib import Path

import library
import machine
import parts as made
import sdist
import wheel_form
from library import TOP
from machine import Machine
from parts import LIBRARY_CRATES, Parts
from tools import ToolError
from tree import File, Tree, copied, files
from wheel_backend import PACKAGE

SOURCE = TOP / "bindings" / "python"

# The files of the package, as patterns below its folder, and the libraries in it, each with the archive that it is made of.
FILES = ("*.py", "py.typed")
LIBRARIES = {"libdelay_queue": "delay_queue_c", "libsched": "sched_c", "libtimers": "timers_c"}
README = "README.md"
SUMMARY = "Timers, a pool of threads for scheduled calls, a delay queue and an executor of plans, over proved libraries"
KEYWORDS = ("scheduler", "timer", "timeout", "delay-queue", "executor", "thread-pool", "heartbeat", "retry")
CLASSIFIERS = (
    "Intended Audience :: Developers",
    "Operating System :: POSIX :: Linux",
    "Programming Language :: Python :: 3",
    "Programming Language :: Python :: 3 :: Only",
    "Programming Language :: Python :: Implementation :: CPython",
    "Topic :: Software Development :: Libraries :: Python Modules",
    "Typing :: Typed",
)
OLDEST_PYTHON = "3.10"
# The oldest C library that the names of platforms know.
OLDEST_GLIBC = (2, 5)


def modules() -> Tree:
    """The modules, as they stand."""
    found: Tree = {}
    for pattern in FILES:
        paths = sorted((SOURCE / PACKAGE).glob(pattern))
        if not paths:
            raise ToolError(f"{SOURCE / PACKAGE} has no {pattern}")
        found |= {f"{PACKAGE}/{path.name}": copied(path) for path in paths}
    return found


def objects(parts: Parts) -> dict[str, File]:
    """The object of each shared library, by the library's name."""
    return {name: parts.objects[crate] for name, crate in LIBRARIES.items()}


def libraries(parts: Parts) -> tuple[Tree, list[Machine]]:
    """The shared libraries, and which machines run each."""
    found: Tree = {}
    machines = []
    with tempfile.TemporaryDirectory() as folder:
        for name, content in objects(parts).items():
            whole, shared = Path(folder) / f"{name}.o", Path(folder) / f"{name}.so"
            whole.write_bytes(content.content)
            library.shared([whole], shared, shared.name)
            found[f"{PACKAGE}/out/{shared.name}"] = File(shared.read_bytes())
            machines.append(machine.measured(shared))
    return found, machines


def tag(machines: list[Machine]) -> str:
    """Which interpreters and platforms the wheel is for. The level of the processor has no word in it."""
    glibc = max(OLDEST_GLIBC, *(it.glibc[:2] for it in machines))
    return f"py3-none-manylinux_{glibc[0]}_{glibc[1]}_x86_64"


def metadata(parts: Parts, machines: list[Machine]) -> str:
    """What the package says of itself: its page is README, with what its libraries need. It has no licence to name."""
    needed = max(machines, key=lambda it: (it.level, it.glibc))
    fields = ["Metadata-Version: 2.4", f"Name: {PACKAGE}", f"Version: {parts.version}", f"Summary: {SUMMARY}",
              f"Maintainer-email: {parts.maintainer}", f"Keywords: {','.join(KEYWORDS)}", f"Requires-Python: >={OLDEST_PYTHON}",
              *(f"Classifier: {classifier}" for classifier in CLASSIFIERS),
              "License-File: NOTICES", "Description-Content-Type: text/markdown"]
    readme = (SOURCE / README).read_text()
    return "\n".join([*fields, "", f"{readme}\nMeasured, of the libraries: {needed}.\n"])


def package(parts: Parts) -> dict[str, bytes]:
    """The wheel and the source archive, by their names."""
    shared, machines = libraries(parts)
    notices, text = made.notices(LIBRARY_CRATES), metadata(parts, machines).encode()
    front = f"{PACKAGE}-{parts.version}"
    name, data = wheel_form.wheel(front, tag(machines), files(modules() | shared), text, notices.content, parts.moment)
    source = sdist.tree(modules(), objects(parts), text, copied(SOURCE / README), notices)
    return {name: data} | sdist.package(parts, source)
