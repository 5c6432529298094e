"""The Debian packages: `sched`, the program; `sched-runner`, which runs jobs by it; `libsched0`, the shared library; `libsched-dev`,
what C programs are built with.

The shared library has a package of its own, named by its soname, so that two versions of it may stand side by side.
"""

from __future__ import annotations

import os
import tempfile
import textwrap
import time
from dataclasses import dataclass
from pathlib import Path

import licences
import pages
import parts as made
from library import TOP
from machine import Machine
from parts import LIBRARY_CRATES, Parts, Places
from tools import output
from tree import File, Tree, checksums, compressed, copied, files, written

PLACES = Places("usr/", "usr/lib/x86_64-linux-gnu", "vendor-completions")
REVISION = "1"
SOURCE = "sched"
ARCHITECTURE = "amd64"
# What refuses to be set up on a processor below level 2. There is none for the levels above.
LEVEL_2 = "sse4.2-support"
APACHE_2 = "/usr/share/common-licenses/Apache-2.0"
PYTHON = "python3:any (>= 3.11)"


@dataclass(frozen=True)
class Package:
    """A package: what it has, what has to stand beside it, and how it is described, in one line and in
    paragraphs."""
    name: str
    section: str
    tree: Tree
    depends: list[str]
    summary: str
    about: list[str]
    crates: list[str]
    control: Tree
    architecture: str = ARCHITECTURE


def version(parts: Parts) -> str:
    """The version of the packages."""
    return f"{parts.version}-{REVISION}"


def runs_on(machine: Machine) -> list[str]:
    """The packages without which a program does not run on a machine."""
    return [f"libc6 (>= {machine.glibc_text})", *([LEVEL_2] if machine.level > 1 else [])]


def told(licence: str) -> str:
    """A licence in a package: of one that each Debian system has, where it stands there."""
    if "Apache License" in licence and "Version 2.0, January 2004" in licence:
        return f"Apache License, Version 2.0. On Debian systems its text is in {APACHE_2}."
    return licence


def copyright_text(parts: Parts, crates: list[str]) -> str:
    """The licences of a package."""
    text = licences.notices(crates, told) if crates else licences.OWN_ALONE
    year = time.gmtime(parts.moment).tm_year
    return f"""Sources: the repository of sched. Its commits are by {parts.maintainer}.

Copyright {year}. Whose it is, the repository does not say.

{text}"""


def changelog(parts: Parts, name: str) -> str:
    """The list of versions, which has the one."""
    day = time.strftime("%a, %d %b %Y %H:%M:%S +0000", time.gmtime(parts.moment))
    return f"{name} ({version(parts)}) unstable; urgency=medium\n\n  * Version {parts.version}.\n\n -- {parts.maintainer}  {day}\n"


def overrides(name: str) -> str:
    """What lintian is told of a package."""
    return f"""# It is not made for Debian's own archive, where a first upload closes the bug that asked for it.
{name}: initial-upload-closes-no-bugs
"""


def documents(parts: Parts, package: Package) -> Tree:
    """What each package has to be read, and what it tells lintian."""
    folder = f"{PLACES.documents}/{package.name}"
    return {
        f"{folder}/copyright": File(copyright_text(parts, package.crates).encode()),
        f"{folder}/changelog.Debian.gz": File(compressed(changelog(parts, package.name).encode())),
        PLACES / f"share/lintian/overrides/{package.name}": File(overrides(package.name).encode()),
    }


def with_short_pages(tree: Tree) -> Tree:
    """The same, with pages of `man` compressed."""
    return {f"{place}.gz" if "/man/" in place else place:
            File(compressed(entry.content)) if "/man/" in place and isinstance(entry, File) else entry
            for place, entry in tree.items()}


def fields(parts: Parts, package: Package, size: int) -> str:
    """What the package says of itself."""
    about = "\n .\n".join(textwrap.fill(paragraph, 78, initial_indent=" ", subsequent_indent=" ") for paragraph in package.about)
    source = "" if package.name == SOURCE else f"\nSource: {SOURCE}"
    return f"""Package: {package.name}{source}
Version: {version(parts)}
Architecture: {package.architecture}
Maintainer: {parts.maintainer}
Installed-Size: {size}
Depends: {", ".join(package.depends)}
Section: {package.section}
Priority: optional
Multi-Arch: {"foreign" if package.section == "utils" else "same"}
Description: {package.summary}
{about}
"""


def shared_name(parts: Parts) -> str:
    """The name of the shared library's package, which alone has no page to begin with: nobody looks into it."""
    return f"libsched{parts.soname.rpartition('.')[2]}"


def packages(parts: Parts) -> list[Package]:
    """The four packages."""
    program = f"{PLACES.documents}/sched"
    development = f"{PLACES.documents}/libsched-dev"
    shared = shared_name(parts)
    programs = with_short_pages(made.program_tree(parts, PLACES)) | pages.program_pages(program)
    examples = {place: entry for place, entry in made.example_tree(program).items() if "/embed/" not in place}
    embedding = {place: entry for place, entry in made.example_tree(development).items() if "/embed/" in place}
    guide: Tree = {f"{development}/README.md": pages.page(TOP / "bindings" / "c" / "README.md"),
                   f"{development}/EMBEDDING.md": copied(TOP / "docs" / "EMBEDDING.md")}
    runner_page: Tree = {f"{PLACES.documents}/sched-runner/README.md": pages.page(made.RUNNER / "README.md")}
    links: Tree = {
        "shlibs": File(f"libsched {parts.soname.rpartition('.')[2]} {shared} (>= {parts.version})\n".encode()),
        "triggers": File(b"activate-noawait ldconfig\n"),
    }
    return [
        Package("sched", "utils", programs | examples, runs_on(parts.program_machine), "executor of scheduled tasks, proved", [
            "It runs plans of scheduled tasks over lines of events, as Java's ScheduledThreadPoolExecutor and DelayQueue do, and "
            "writes what happens. Every moment is handed in, so the same plan and events give the same bytes.",
            f"Measured of the program: {parts.program_machine}."], ["sched"], {}),
        Package("sched-runner", "utils", with_short_pages(made.runner_tree(parts, PLACES, made.SYSTEM_PYTHON)) | runner_page,
                [f"sched (= {version(parts)})", PYTHON], "runs commands by a plan of sched", [
            "It runs commands as a plan of scheduled tasks says and as the clock goes, with timeouts, further attempts, and starts by "
            "the wall clock, and writes a trace, which sched checks."], [], {}, "all"),
        Package(shared, "libs", made.shared_tree(parts, PLACES), runs_on(parts.library_machine), "timers and executors, proved", [
            "This is the shared library: an executor whose tasks are submitted and cancelled while it runs, an executor of plans, "
            "and a delay queue.",
            f"Measured of the library: {parts.library_machine}."], LIBRARY_CRATES, links),
        Package("libsched-dev", "libdevel", made.development_tree(parts, PLACES, "/usr") | embedding | guide,
                [f"{shared} (= {version(parts)})"], "timers and executors, proved: for C programs", [
            "These are the headers, the archive, what pkg-config says, and examples, of an executor whose tasks are submitted and "
            "cancelled while it runs, of an executor of plans, and of a delay queue."], LIBRARY_CRATES, {}),
    ]


def built(parts: Parts, package: Package) -> bytes:
    """A package as a file."""
    tree = package.tree | documents(parts, package)
    content = files(tree)
    size = sum(-(-len(data) // 1024) for data in content.values())
    control: Tree = package.control | {
        "control": File(fields(parts, package, size).encode()),
        "md5sums": File(checksums(content, "md5")),
    }
    environment = dict(os.environ, SOURCE_DATE_EPOCH=str(parts.moment))
    with tempfile.TemporaryDirectory() as name:
        folder, file = Path(name) / "tree", Path(name) / "package.deb"
        written(tree | {f"DEBIAN/{place}": entry for place, entry in control.items()}, folder)
        output(["chmod", "-R", "u=rwX,go=rX", folder])
        output(["dpkg-deb", "--root-owner-group", "--build", folder, file], environment=environment)
        return file.read_bytes()


def package(parts: Parts) -> dict[str, bytes]:
    """The packages, by their names."""
    return {f"{it.name}_{version(parts)}_{it.architecture}.deb": built(parts, it) for it in packages(parts)}
