"""Builds the wheel of a source archive that this file stands in, by PEP 517.

The proved libraries are there as objects, one for each, which the C compiler links: `$CC`, or `cc`. Nothing else is needed, and
nothing is fetched.
"""

from __future__ import annotations

import email
import os
import platform
import subprocess
import sys
import tarfile
import tempfile
from pathlib import Path
from typing import Any

from wheel_form import wheel

TOP = Path(__file__).resolve().parent.parent
PACKAGE = "sched_timers"
METADATA = "PKG-INFO"


def build_wheel(wheel_directory: str, config_settings: Any = None, metadata_directory: Any = None) -> str:
    """Writes the wheel into a folder, and answers its name."""
    if (sys.platform, platform.machine()) != ("linux", "x86_64"):
        raise SystemExit(f"the objects of {PACKAGE} are for Linux on x86-64, not for {sys.platform} on {platform.machine()}")
    metadata, notices = (TOP / METADATA).read_bytes(), (TOP / "NOTICES").read_bytes()
    content = {f"{PACKAGE}/{path.name}": path.read_bytes() for path in sorted((TOP / PACKAGE).iterdir()) if path.is_file()}
    for path in sorted((TOP / "objects").glob("*.o")):
        content[f"{PACKAGE}/out/{path.stem}.so"] = linked(path)
    name, data = wheel(front(), "py3-none-linux_x86_64", content, metadata, notices, moment())
    (Path(wheel_directory) / name).write_bytes(data)
    return name


def build_sdist(sdist_directory: str, config_settings: Any = None) -> str:
    """Writes this source archive again."""
    name = f"{front()}.tar.gz"
    with tarfile.open(Path(sdist_directory) / name, "w:gz", format=tarfile.PAX_FORMAT) as archive:
        for path in sorted(TOP.rglob("*")):
            if path.is_file() and "__pycache__" not in path.parts:
                archive.add(path, f"{front()}/{path.relative_to(TOP)}")
    return name


def front() -> str:
    """The name and the version, with which the names of packages begin."""
    fields = email.message_from_bytes((TOP / METADATA).read_bytes())
    return f"{fields['Name']}-{fields['Version']}"


def linked(source: Path) -> bytes:
    """The shared library of an object, which has the object's name."""
    with tempfile.TemporaryDirectory() as folder:
        library = Path(folder) / f"{source.stem}.so"
        words = ["-shared", "-s", "-o", library, f"-Wl,-soname,{library.name}", "-Wl,-z,defs,-z,relro,-z,now", source]
        subprocess.run([os.environ.get("CC", "cc"), *words], check=True)
        return library.read_bytes()


def moment() -> int:
    """The moment that all files carry: that of the archive's own, which is the commit's."""
    return int(os.environ.get("SOURCE_DATE_EPOCH") or (TOP / METADATA).stat().st_mtime)
