"""The source archive of the package in Python.

The sources of the proved libraries need the toolchain, so the archive has an object of each, which the C compiler links as the
package is installed: `wheel_backend` does it.
"""

from __future__ import annotations

from pathlib import Path

import wheel_backend
from parts import Parts
from tree import File, Tree, copied, tarred

HERE = Path(__file__).resolve().parent
BACKEND = ("wheel_backend.py", "wheel_form.py")
PROJECT = """\
[build-system]
requires = []
build-backend = "wheel_backend"
backend-path = ["backend"]
"""


def tree(modules: Tree, objects: dict[str, File], metadata: bytes, readme: File, notices: File) -> Tree:
    """All files. An object is named as its library is."""
    return modules | {f"objects/{name}.o": content for name, content in objects.items()} | {
        f"backend/{name}": copied(HERE / name) for name in BACKEND} | {
        "pyproject.toml": File(PROJECT.encode()), wheel_backend.METADATA: File(metadata), "README.md": readme, "NOTICES": notices}


def package(parts: Parts, content: Tree) -> dict[str, bytes]:
    """The archive, by its name."""
    front = f"{wheel_backend.PACKAGE}-{parts.version}"
    return {f"{front}.tar.gz": tarred(content, parts.moment, f"{front}/")}
