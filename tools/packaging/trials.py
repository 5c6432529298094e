"""The packages, installed: each into an empty root, a fresh folder or a fresh virtual environment, without the toolchain, and tried."""

from __future__ import annotations

import json
import os
import re
import shutil
import sys
import tempfile
from collections.abc import Callable, Iterator
from contextlib import contextmanager
from dataclasses import replace
from pathlib import Path

import checks
import crate
import debian
import jar
import pages
import shells
import tarball
import versions
import wheel
from checks import Installed, expect
from library import C_LIBRARY, TOP
from parts import Parts
from tools import ToolError, output

# The programs in Python that the wheel is tried with, and what each writes.
PYTHON_PROGRAMS = TOP / "examples" / "embed" / "python"
PYTHON_EXAMPLES = {name: name.replace(".py", ".txt") for name in ("heartbeat_pool.py", "debounce.py", "fetch_asyncio.py")}
# Writes all fields of what an installed package says of itself.
METADATA_PROGRAM = """\
import importlib.metadata, json, sys
fields = importlib.metadata.metadata(sys.argv[1])
print(json.dumps({name: fields.get_all(name) for name in fields}))
"""
# The examples of the crate, and what each writes.
RUST_EXAMPLES = {"retries": "stdout", "retries_with_backoff": "stdout_retries"}
# A program of another crate that stands on this one, and what it writes.
RUST_USER = """\
fn main() -> Result<(), sched::QueueError> {
    let mut queue = sched::DelayQueue::new(1)?;
    queue.insert(5_000, 0)?;
    for entry in queue.due(6_000) {
        println!("task {} was due at {}", entry.task, entry.due);
    }
    Ok(())
}
"""
RUST_USER_WRITES = "task 0 was due at 5000\n"
# A program in Java that takes the class for Java's own, and what it writes.
JAVA_USER = """\
import java.util.concurrent.ScheduledThreadPoolExecutor;
import java.util.concurrent.TimeUnit;
import sched.timers.TimersThreadPoolExecutor;

public class User {
    public static void main(String[] words) throws Exception {
        ScheduledThreadPoolExecutor pool = new TimersThreadPoolExecutor(2);
        int value = pool.schedule(() -> 6 * 7, 1, TimeUnit.MILLISECONDS).get();
        pool.shutdown();
        System.out.println(value + " " + pool.awaitTermination(30, TimeUnit.SECONDS));
    }
}
"""
JAVA_USER_WRITES = "42 true\n"
SYSTEM_FOLDERS = ("/usr/bin", "/bin", "/usr/sbin", "/sbin")
LOADER = "/lib64/ld-linux-x86-64.so.2"


class Trials:
    """Counts what is tried, and tells what failed."""

    def __init__(self) -> None:
        self.passed = self.failed = 0

    @contextmanager
    def step(self, name: str) -> Iterator[None]:
        """One thing that is tried: it passes where nothing is raised."""
        try:
            yield
        except (ToolError, OSError) as error:
            self.failed += 1
            print(f"{name}: FAILED\n{str(error)[-3000:]}", flush=True)
        else:
            self.passed += 1
            print(f"{name}: passed", flush=True)


Trial = Callable[[Trials, Parts, dict[str, bytes], Path], None]


def outside(home: Path, *more: Path) -> dict[str, str]:
    """An environment that knows nothing of the toolchain. What is in the folders named comes before what the system has."""
    path = os.pathsep.join([*map(str, more), *SYSTEM_FOLDERS])
    if shutil.which("rt", path=path):
        raise ToolError(f"the toolchain is in {path}")
    return {"PATH": path, "HOME": str(home), "LANG": "C.UTF-8"}


def try_program(trials: Trials, name: str, installed: Installed, folder: Path) -> None:
    """The program, its pages and its completions, and the runner of jobs."""
    with trials.step(f"{name}: the program's first command"):
        checks.first_command(installed)
    with trials.step(f"{name}: the version that the program tells"):
        expect(installed.run(installed.program, "--version"), f"sched {installed.version} ({versions.toolchain()})\n")
    with trials.step(f"{name}: pages"):
        checks.pages(installed)
    if checks.has_python(installed):
        with trials.step(f"{name}: the runner of jobs"):
            checks.runner(installed, folder)
    for shell in filter(None, map(shells.found, shells.STARTS)):
        with trials.step(f"{name}: completions of {shell.name}"):
            checks.completions(installed, shell)


def try_libraries(trials: Trials, name: str, installed: Installed, folder: Path) -> None:
    """The headers, and the examples in C. Programs are built in a folder where they can be run."""
    with trials.step(f"{name}: headers"):
        checks.headers(installed, folder)
    with trials.step(f"{name}: the examples in C, over the shared library and over the archive"):
        checks.c_examples(installed, folder)


def try_tarball(trials: Trials, parts: Parts, packages: dict[str, bytes], folder: Path) -> None:
    """The archive, unpacked in a folder of its own."""
    root = folder / tarball.name(parts)
    environment = outside(folder) | {"PKG_CONFIG_PATH": str(root / "lib" / "pkgconfig"), "LD_LIBRARY_PATH": str(root / "lib")}
    with trials.step("archive: unpacked, with its checksums"):
        (folder / "archive").write_bytes(packages[f"{tarball.name(parts)}.tar.gz"])
        output(["tar", "-xzf", folder / "archive", "-C", folder], environment=environment)
        output(["sha256sum", "--check", "--strict", root / tarball.SUMS], environment=environment, folder=root)
    examples = root / tarball.DOCUMENTS / "examples"
    with trials.step("archive: its page, and what that leads to"):
        checks.readme(examples.parent / "README.md")
    installed = Installed(parts.version, root / "bin" / "sched", root / "share", examples, environment)
    try_program(trials, "archive", installed, folder)
    if checks.has_emulator():
        with trials.step(f"archive: the program on a processor of level {parts.program_machine.level}"):
            checks.emulated(installed, parts.program_machine.level)
    try_libraries(trials, "archive", installed, folder)


def with_c_library(root: Path) -> None:
    """Gives an empty root the C library and what loads it, and nothing else."""
    for file in (LOADER, f"/lib/x86_64-linux-gnu/{C_LIBRARY}"):
        (root / file[1:]).parent.mkdir(parents=True, exist_ok=True)
        shutil.copy(file, root / file[1:])


def try_debian(trials: Trials, parts: Parts, packages: dict[str, bytes], folder: Path) -> None:
    """The Debian packages, installed by dpkg into a root that has the C library alone."""
    if not shutil.which("dpkg") or os.geteuid() != 0:
        print("dpkg is not there, or may not install: its steps are left out", flush=True)
        return
    environment, root = outside(folder), folder / "root"
    files = [folder / name for name in packages if name.endswith(".deb")]
    for file in files:
        file.write_bytes(packages[file.name])
    names = [it.name for it in debian.packages(parts)]
    with trials.step("Debian: installed"):
        (root / "var" / "lib" / "dpkg").mkdir(parents=True)
        (root / "var" / "lib" / "dpkg" / "status").touch()
        # The root has no package of the C library, so what is missing is that alone.
        output(["dpkg", f"--root={root}", "--force-depends", "--install", *files], environment=environment)
        expect(output(["dpkg", f"--root={root}", "--verify", *names], environment=environment), "")
    with trials.step("Debian: the pages of the packages, and what they lead to"):
        for name in set(names) - {debian.shared_name(parts)}:
            checks.readme(root / debian.PLACES.documents / name / "README.md")
    with_c_library(root)
    environment["PKG_CONFIG_PATH"] = str(root / debian.PLACES.libraries / "pkgconfig")
    documents = root / debian.PLACES.documents
    installed = Installed(parts.version, root / "usr" / "bin" / "sched", root / "usr" / "share", documents / "sched" / "examples",
                          environment, [f"--define-variable=prefix={root}/usr"], root, "/usr")
    try_program(trials, "Debian", installed, folder)
    work = root / "work"
    work.mkdir()
    try_libraries(trials, "Debian", replace(installed, examples=documents / "libsched-dev" / "examples"), work)
    with trials.step("Debian: removed, with nothing left"):
        output(["dpkg", f"--root={root}", "--purge", *names], environment=environment)
        left = [str(path) for part in ("usr/bin", "usr/include", "usr/share") for path in (root / part).rglob("*")]
        expect("\n".join(left), "")
    if shutil.which("lintian"):
        with trials.step("Debian: lintian finds no error and warns of nothing"):
            output(["lintian", "--fail-on", "error,warning", *files], environment=environment | {"USER": "root"})
    else:
        print("left out, no lintian")


def installed_by_pip(name: str, data: bytes, folder: Path, environment: dict[str, str]) -> Path:
    """The interpreter of a fresh virtual environment that has a package, and nothing else. No index is asked."""
    folder.mkdir()
    (folder / name).write_bytes(data)
    python = folder / "environment" / "bin" / "python"
    output([sys.executable, "-m", "venv", folder / "environment"], environment=environment)
    output([python, "-m", "pip", "install", "--quiet", "--no-index", folder / name], environment=environment)
    return python


def try_metadata(python: Path, version: str, maintainer: str, environment: dict[str, str]) -> None:
    """What an installed package says of itself: each field, and its page, which has no word of the toolchain."""
    fields = json.loads(output([python, "-I", "-c", METADATA_PROGRAM, wheel.PACKAGE], environment=environment))
    wanted = {"Name": [wheel.PACKAGE], "Version": [version], "Summary": [wheel.SUMMARY], "Keywords": [",".join(wheel.KEYWORDS)],
              "Requires-Python": [f">={wheel.OLDEST_PYTHON}"], "Classifier": list(wheel.CLASSIFIERS),
              "Description-Content-Type": ["text/markdown"], "License-File": ["NOTICES"], "Maintainer-email": [maintainer]}
    expect(str({name: fields.get(name) for name in wanted}), str(wanted))
    readme = (wheel.SOURCE / wheel.README).read_text()
    page, needed = fields["Description"][0].rsplit("\nMeasured, of the libraries: ", 1)
    expect(page, readme)
    if pages.TOOLCHAIN.search(page) or not needed.startswith("Linux, glibc "):
        raise ToolError(f"the page names the toolchain, or not what the libraries need:\n{page}\n{needed}")


def try_wheel(trials: Trials, parts: Parts, packages: dict[str, bytes], folder: Path) -> None:
    """The wheel and the source archive, each in a fresh virtual environment, and away from the sources. The second has no index to
    build from either."""
    environment = outside(folder)
    for kind, ending in [("wheel", ".whl"), ("source archive", ".tar.gz")]:
        name = next(name for name in packages if name.startswith(wheel.PACKAGE) and name.endswith(ending))
        with trials.step(f"{kind}: installed"):
            python = installed_by_pip(name, packages[name], folder / kind.split()[0], environment)
        with trials.step(f"{kind}: what it says of itself"):
            try_metadata(python, parts.version, parts.maintainer, environment)
        for example, wanted in PYTHON_EXAMPLES.items():
            with trials.step(f"{kind}: {example}"):
                shutil.copy(PYTHON_PROGRAMS / example, folder)
                found = output([python, "-I", folder / example], environment=environment, folder=folder)
                expect(found, (PYTHON_PROGRAMS / wanted).read_text())
    with trials.step("wheel and source archive: the same bytes once more, and without the program"):
        anew = Parts(parts.version)
        again = wheel.package(anew)
        if again.items() - packages.items():
            raise ToolError(f"other bytes: {[name for name in again if again[name] != packages.get(name)]}")
        if vars(anew).keys() & {"program", "program_machine", "pages"}:
            raise ToolError("the program was built for a wheel")


def try_jar(trials: Trials, parts: Parts, packages: dict[str, bytes], folder: Path) -> None:
    """The jars: a program over the class, as a path and as a module; sources and pages; and the same bytes once more."""
    names = sorted(name for name in packages if name.endswith(".jar"))
    if not names:
        print("there are no jars: their steps are left out", flush=True)
        return
    programs = jar.needed_jdk() / "bin"
    environment = outside(folder)
    for name in names:
        (folder / name).write_bytes(packages[name])
    main, javadoc, sources = (folder / f"{jar.NAME}-{parts.version}{part}.jar" for part in ("", "-javadoc", "-sources"))
    (folder / "User.java").write_text(JAVA_USER)
    with trials.step("jar: a program over it"):
        output([programs / "javac", "-cp", main, "-d", folder, folder / "User.java"], environment=environment)
        expect(output([programs / "java", "-cp", f"{main}{os.pathsep}{folder}", "User"], environment=environment), JAVA_USER_WRITES)
    with trials.step("jar: a module"):
        command = [programs / "java", "--module-path", main, "--add-modules", jar.MODULE, "-cp", folder, "User"]
        expect(output(command, environment=environment), JAVA_USER_WRITES)
    with trials.step("jar: sources and pages"):
        for file, wanted in [(sources, "sched/timers/Timers.java"), (javadoc, "sched/timers/TimersThreadPoolExecutor.html"), (main, jar.LIBRARY),
                             (main, "META-INF/README.md")]:
            if wanted not in output([programs / "jar", "--list", "--file", file], environment=environment).split():
                raise ToolError(f"{file.name} has no {wanted}")
    with trials.step("jar: the same bytes once more"):
        again = jar.package(parts)
        expect("\n".join(name for name in names if again[name] != packages[name]), "")


def crate_user(folder: Path, dependency: Path) -> Path:
    """The folder of another crate that stands on this one."""
    user = folder / "user"
    (user / "src").mkdir(parents=True)
    (user / "src" / "main.rs").write_text(RUST_USER)
    words = ["[package]", 'name = "user"', 'edition = "2024"', "[dependencies]", f'sched = {{ path = "{dependency}" }}', ""]
    (user / "Cargo.toml").write_text("\n".join(words))
    return user


def try_crate(trials: Trials, parts: Parts, packages: dict[str, bytes], folder: Path) -> None:
    """The crate, unpacked: its tests, its examples, and a crate that stands on it."""
    cargo = shutil.which("cargo")
    if not cargo:
        print("cargo is not there: its steps are left out", flush=True)
        return
    environment = outside(folder, Path(cargo).parent) | {"CARGO_TARGET_DIR": str(folder / "target")}
    for name, standing in [("CARGO_HOME", ".cargo"), ("RUSTUP_HOME", ".rustup")]:
        environment[name] = os.environ.get(name, str(Path.home() / standing))
    root = folder / crate.name(parts)
    with trials.step("crate: cargo test --offline"):
        (folder / "crate").write_bytes(packages[f"{crate.name(parts)}.tar.gz"])
        output(["tar", "-xzf", folder / "crate", "-C", folder], environment=environment)
        tested = output(["cargo", "test", "--offline"], environment=environment, folder=root)
        if not re.search(r"test result: ok\. [1-9]\d* passed", tested):
            raise ToolError(f"no test ran:\n{tested}")
    with trials.step("crate: its pages, and what they lead to"):
        for page in ("README.md", "tokio/README.md"):
            checks.readme(root / page)
    for example, wanted in RUST_EXAMPLES.items():
        with trials.step(f"crate: its example {example}"):
            found = output(["cargo", "run", "--quiet", "--offline", "--example", example], environment=environment, folder=root)
            expect(found, (crate.PROGRAMS / wanted).read_text())
    with trials.step("crate: another crate that stands on it"):
        user = crate_user(folder, root)
        expect(output(["cargo", "run", "--quiet", "--offline"], environment=environment, folder=user), RUST_USER_WRITES)


def run(parts: Parts, packages: dict[str, bytes], wanted: dict[str, Trial]) -> int:
    """Tries the packages of some kinds, each in a new folder, and says how many steps failed."""
    trials = Trials()
    for kind, trial in wanted.items():
        with tempfile.TemporaryDirectory(prefix=f"sched-{kind}-") as folder:
            Path(folder).chmod(0o755)
            trial(trials, parts, packages, Path(folder))
    print(f"{trials.passed} passed, {trials.failed} failed")
    return trials.failed
