"""The libraries for C, made of the proved archives and of the toolchain's heap archive, which alone calls malloc and free.

Each proved archive becomes one object that needs nothing but the C library: the heap archive is linked into it, and only the names
that the headers declare stay global. So a program may link with other libraries of the same toolchain, and takes of `libsched.a` what
it calls.
"""

from __future__ import annotations

import re
from collections import Counter
from pathlib import Path

from tools import ToolError, compiler, output

TOP = Path(__file__).resolve().parents[2]
LIBRARIES = {"delay_queue_c": "delay_queue.h", "sched_c": "sched.h", "timers_c": "timers.h"}
DECLARATION = re.compile(r"^(?!static|typedef)\w[\w ]*[ *](\w+)\([^{};]*\);", re.MULTILINE)
C_LIBRARY = "libc.so.6"


def proved(library: str) -> Path:
    """The archive that `rt lib` makes of a library."""
    archive = TOP / "crates" / library / "out" / f"lib{library}.a"
    if not archive.exists():
        raise ToolError(f"{archive} is not there: run `rt lib` in {archive.parent.parent}")
    return archive


def kit() -> Path:
    """The folder of the toolchain."""
    return Path(output(["rt", "doc"]).strip()).parent


def declared(header: str) -> set[str]:
    """The functions that a header declares, but for those that it defines."""
    names = set(DECLARATION.findall((TOP / "include" / header).read_text()))
    if not names:
        raise ToolError(f"{header} declares no function")
    return names


def defined(file: Path) -> Counter[str]:
    """The global names that an object or an archive defines, and how often it does."""
    return Counter(line.split()[-1] for line in output(["nm", "--defined-only", "--extern-only", file]).splitlines()
                   if len(line.split()) == 3)


def whole_object(library: str, folder: Path) -> Path:
    """The object of a library."""
    whole, names = folder / f"{library}.o", folder / f"{library}.names"
    wanted = declared(LIBRARIES[library])
    names.write_text("".join(f"{name}\n" for name in sorted(wanted)))
    output(["ld", "-r", "-o", whole, "--whole-archive", proved(library), "--no-whole-archive", kit() / "c" / "liblibc_c.a"])
    output(["objcopy", "--strip-debug", "--localize-hidden", f"--keep-global-symbols={names}", whole])
    names.unlink()
    if defined(whole) != Counter(wanted):
        raise ToolError(f"{LIBRARIES[library]} declares {sorted(wanted)}, and {whole.name} defines {sorted(defined(whole))}")
    return whole


def whole_objects(folder: Path) -> dict[str, Path]:
    """The object of each library."""
    return {library: whole_object(library, folder) for library in LIBRARIES}


def archive(objects: list[Path], file: Path) -> None:
    """Makes an archive of objects, in which no name is defined twice."""
    file.unlink(missing_ok=True)
    output(["ar", "rcsD", file, *objects])
    twice = [name for name, count in defined(file).items() if count > 1]
    if twice:
        raise ToolError(f"{file.name} defines twice: {twice}")


def needed(file: Path) -> set[str]:
    """The shared libraries that a program or a library names."""
    return set(re.findall(r"\(NEEDED\).*\[(.*)\]", output(["readelf", "--dynamic", "--wide", file])))


def shared(objects: list[Path], file: Path, soname: str) -> None:
    """Makes a shared library of objects, which needs the C library alone."""
    output([compiler(), "-shared", "-o", file, f"-Wl,-soname,{soname}", "-Wl,-z,defs,-z,relro,-z,now,--build-id=sha1", *objects])
    output(["strip", "--strip-unneeded", file])
    if needed(file) != {C_LIBRARY}:
        raise ToolError(f"{file.name} needs {sorted(needed(file))}, and not {C_LIBRARY} alone")
