"""The jar for Java: the classes, the library that they load, and beside it sources and pages.

The library is the crossings of `bindings/java/native` and the proved archive in one file, which exports the crossings alone and needs
nothing but the C library.
"""

from __future__ import annotations

import shutil
import tempfile
from pathlib import Path
from typing import Any

import library
import machine
import pages as package_pages
import parts as made
from library import C_LIBRARY, TOP
from parts import Parts
from tools import ToolError, compiler, output
from tree import File, Tree, copied, files
from wheel_form import zipped

SOURCE = TOP / "bindings" / "java"
CLASSES = SOURCE / "src"
NATIVE = SOURCE / "native"
NAME = "sched-timers"
MODULE = "sched.timers"
# Where the classes look for the library, and the oldest Java that has what they name.
LIBRARY = "sched/timers/native/linux-x86_64/libtimers_jni.so"
RELEASE = 11
# The Java that the classes are compiled and tried with.
JAVA = 17
# The tools of a JDK are short: with one compiler and one collector they take a part of the threads, and of the time.
SHORT = ["-J-XX:TieredStopAtLevel=1", "-J-XX:+UseSerialGC"]
# The level of the processor that the pages of the class name.
LEVEL = 2
STRICT = ["-std=c11", "-O2", "-fPIC", "-fvisibility=hidden", "-Wall", "-Wextra", "-Werror", "-pedantic"]


def jdk() -> Path | None:
    """The folder of a JDK of the version that all is tried with, or None."""
    found = shutil.which("javac")
    folders = sorted(Path("/usr/lib/jvm").glob(f"java-{JAVA}-openjdk-*")) + ([Path(found).resolve().parent.parent] if found else [])
    for folder in folders:
        if (folder / "bin" / "javac").exists() and f"javac {JAVA}." in output([folder / "bin" / "javac", "-version"]):
            return folder
    return None


def needed_jdk() -> Path:
    """The JDK, which has to be there."""
    found = jdk()
    if found is None:
        raise ToolError(f"a JDK {JAVA} is wanted: apt-get install openjdk-{JAVA}-jdk-headless")
    return found


def shared(over: list[Any], file: Path, *more: str) -> None:
    """Makes the library: the crossings over what has the timers, an object, archives or a source. `more` are words for the compiler."""
    include = needed_jdk() / "include"
    words = [*STRICT, *more, f"-I{include}", f"-I{include / 'linux'}", "-iquote", TOP / "include"]
    link = [f"-Wl,--version-script={NATIVE / 'exports.map'}", "-Wl,-z,defs,-z,relro,-z,now,--build-id=sha1"]
    output([compiler(), *words, "-shared", NATIVE / "timers_jni.c", *over, *link, "-o", file])


def compiled(folder: Path, classes: Path | None = None, *sources: Path) -> None:
    """Compiles the classes, or other sources over those of a class path, into a folder."""
    found = sources or sorted(CLASSES.rglob("*.java"))
    front = ["--class-path", classes] if classes else []
    release = [] if sources else ["--release", RELEASE]
    output([needed_jdk() / "bin" / "javac", *SHORT, *release, "-encoding", "UTF-8", "-Xlint:all,-serial,-options", "-Werror", *front, "-d", folder, *found])


def below(folder: Path, pattern: str = "*") -> Tree:
    """All files of a folder, by their places in it."""
    return {str(path.relative_to(folder)): copied(path) for path in sorted(folder.rglob(pattern)) if path.is_file()}


def manifest(version: str, is_program: bool, *more: str) -> File:
    """What stands first in a jar."""
    lines = ["Manifest-Version: 1.0", f"Implementation-Title: {NAME}", f"Implementation-Version: {version}", *more]
    return File("\r\n".join([*lines, *[f"Automatic-Module-Name: {MODULE}"] * is_program, "", ""]).encode())


def archived(parts: Parts, content: Tree, is_program: bool = False) -> bytes:
    """A jar, whose bytes hang on the files and the last commit alone."""
    vendor = f"Implementation-Vendor: {parts.maintainer.partition(' <')[0]}"
    whole = {"META-INF/MANIFEST.MF": manifest(parts.version, is_program, vendor), "META-INF/NOTICES": made.notices(["timers_c"]),
             "META-INF/README.md": package_pages.page(SOURCE / "README.md")}
    return zipped(files(whole | dict(sorted(content.items()))), parts.moment)


def program(parts: Parts, folder: Path) -> Tree:
    """The classes with the library, and a file that says which machines run it."""
    whole, built = folder / "timers_c.o", folder / "libtimers_jni.so"
    whole.write_bytes(parts.objects["timers_c"].content)
    shared([whole], built)
    output(["strip", "--strip-unneeded", built])
    if library.needed(built) != {C_LIBRARY}:
        raise ToolError(f"{built.name} needs {sorted(library.needed(built))}, and not {C_LIBRARY} alone")
    compiled(folder / "classes")
    measured = machine.measured(built)
    if measured.level > LEVEL:
        raise ToolError(f"{built.name} needs a processor of level {measured.level}, and the pages say {LEVEL}")
    text = f"Measured, of the library: {measured}.\nThe classes: Java {RELEASE} or later; tried with Java {JAVA}.\n"
    return below(folder / "classes") | {LIBRARY: File(built.read_bytes()), "META-INF/MACHINES": File(text.encode())}


def pages(folder: Path) -> Tree:
    """What `javadoc` writes, without moments."""
    words = [*SHORT, "-quiet", "-notimestamp", "-Xdoclint:all", "-Werror", "--release", RELEASE, "-encoding", "UTF-8", "-sourcepath", CLASSES]
    output([needed_jdk() / "bin" / "javadoc", *words, "-d", folder / "pages", MODULE])
    return below(folder / "pages")


def package(parts: Parts) -> dict[str, bytes]:
    """The three jars, by their names; none where there is no JDK, which is told."""
    if jdk() is None:
        print(f"a JDK {JAVA} is not there: the jars are left out", flush=True)
        return {}
    front = f"{NAME}-{parts.version}"
    with tempfile.TemporaryDirectory() as name:
        folder = Path(name)
        return {
            f"{front}.jar": archived(parts, program(parts, folder), is_program=True),
            f"{front}-sources.jar": archived(parts, below(CLASSES, "*.java")),
            f"{front}-javadoc.jar": archived(parts, pages(folder)),
        }


def overs(archive: Path | None) -> list[Any]:
    """What a library for tests stands over: an archive of `rt lib` with the toolchain's heap, or the timers by hand."""
    if archive is None:
        return [TOP / "tools" / "timers_speed" / "peer.c"]
    return [archive, library.kit() / "c" / "liblibc_c.a"]


def for_tests(folder: Path, archive: Path | None, *more: str) -> Path:
    """A jar for tests and measures, in a folder."""
    classes = folder / "classes"
    file = classes / LIBRARY
    file.parent.mkdir(parents=True)
    shared(overs(archive), file, *more)
    compiled(classes)
    jar = folder / f"{NAME}.jar"
    content = {"META-INF/MANIFEST.MF": manifest("0", True)} | below(classes)
    jar.write_bytes(zipped(files(content), 315532800))
    return jar
