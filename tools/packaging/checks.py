"""What is tried of the program and the libraries where they are installed. Each check raises an error where something is not as it
has to be."""

from __future__ import annotations

import os
import shutil
from collections.abc import Iterator
from dataclasses import dataclass, field
from pathlib import Path
from typing import Any

import help_text
import pages as package_pages
from completions import places
from help_text import Command, Program
from parts import HEADERS
from shells import Shell, completed
from tools import ToolError, compiler, output

# For each level of the processor, one that qemu knows, which has no more.
PROCESSORS = {1: "kvm64,-sse3,-cx16", 2: "Nehalem", 3: "Haswell"}
EMULATOR = "qemu-x86_64"
FIRST_EXAMPLE = "one-delay"
RUNNER_EXAMPLE = "heartbeat"
# The examples in C, one for each library, and what each writes.
C_EXAMPLES = {"c/timeout_wheel.c": "c/stdout", "c/heartbeat.c": "heartbeat.txt", "c/echo_timeouts.c": "c/echo_stdout"}
HEADERS_TEST = """\
#include <pthread.h>
#ifdef __cplusplus
#include <thread>
#endif
{includes}
#if SCHED_VERSION_MAJOR != {major} || SCHED_VERSION_MINOR != {minor} || SCHED_VERSION_PATCH != {patch}
#error another version
#endif
static struct sched_param of_the_c_library;
static char of_one_length[sizeof(SCHED_VERSION) == sizeof("{version}") ? 1 : -1];
int main(void) {{ (void)of_the_c_library; (void)of_one_length; return 0; }}
"""


@dataclass(frozen=True)
class Installed:
    """What is installed: which version, the program, the folders of pages and completions and of examples, the environment of each
    command, more words for pkg-config, the root in which its programs run, where that is another one, and the folder below which
    shells find its files, as if it stood there."""
    version: str
    program: Path
    share: Path
    examples: Path
    environment: dict[str, str]
    config_words: list[str] = field(default_factory=list)
    root: Path | None = None
    prefix: str = "/usr/local"

    def run(self, program: Path, *words: Any, given: bytes = b"") -> str:
        """What a program writes. Files among the words are named as it sees them."""
        command = ["chroot", self.root, self.seen(program)] if self.root else [program]
        seen = [self.seen(word) if isinstance(word, Path) else word for word in words]
        return output([*command, *seen], environment=self.environment, given=given)

    def seen(self, file: Path) -> Path:
        """A file's name inside the root."""
        return Path("/") / file.relative_to(self.root) if self.root else file

    def config(self, *words: str) -> list[str]:
        """What pkg-config says of the library."""
        return output(["pkg-config", *self.config_words, *words, "sched"], environment=self.environment).split()


def expect(found: str, wanted: str) -> None:
    """Two texts that have to be the same."""
    if found != wanted:
        raise ToolError(f"found:\n{found}\nwanted:\n{wanted}")


def first_command(installed: Installed) -> None:
    """The program runs the tour's example."""
    example = installed.examples / FIRST_EXAMPLE
    events = (example / "events.txt").read_bytes()
    found = installed.run(installed.program, "run", example / "plan.toml", "--workers", "1", given=events)
    expect(found, (example / "trace.txt").read_text())


def has_emulator() -> bool:
    """Whether another processor can be tried; tells where it can not."""
    there = shutil.which(EMULATOR) is not None
    if not there:
        print(f"{EMULATOR} is not there: the level of the processor is not tried", flush=True)
    return there


def emulated(installed: Installed, level: int) -> None:
    """The program runs the tour's example on a processor that has this level and no more."""
    example = installed.examples / FIRST_EXAMPLE
    command = [EMULATOR, "-cpu", PROCESSORS[level], installed.program, "run", example / "plan.toml", "--workers", "1"]
    found = output(command, environment=installed.environment, given=(example / "events.txt").read_bytes())
    expect(found, (example / "trace.txt").read_text())


def pages(installed: Installed) -> None:
    """All pages are there for `man`, which finds nothing wrong with them; nor does mandoc, where it is there."""
    for section, name in [("1", "sched"), ("1", "sched-runner"), ("5", "sched-plan")]:
        page = next((installed.share / "man" / f"man{section}").glob(f"{name}.{section}*"))
        text = output(["man", "-l", page], environment=installed.environment)
        if f"{name.upper()}({section})" not in text or "NAME" not in text:
            raise ToolError(f"{page} is no page of {name}: {text[:500]}")
        script = 'man --warnings -E UTF-8 -l -Tutf8 -Z "$1" 2>&1 > /dev/null'
        expect(output(["sh", "-c", script, "sh", page], environment=installed.environment), "")
        if shutil.which("mandoc"):
            expect(output(["mandoc", "-Tlint", "-Wwarning", page], environment=installed.environment), "")


def readme(file: Path) -> None:
    """A page to begin with is there, has no word of the toolchain, and leads to nothing that is not there."""
    text = file.read_text()
    lost = [name for name in package_pages.named(text) if not (file.parent / name).is_file()]
    if package_pages.TOOLCHAIN.search(text) or lost:
        raise ToolError(f"{file} names the toolchain, or what is not there: {lost}")


def has_python(installed: Installed) -> bool:
    """Whether the system has a Python for the runner; tells where it has not."""
    try:
        output(["python3", "-c", "import tomllib"], environment=installed.environment)
    except (ToolError, OSError):
        print("Python 3.11 is not there: the runner is not tried", flush=True)
        return False
    return True


def runner(installed: Installed, folder: Path) -> None:
    """The runner runs one of its examples by the program beside it, and leaves nothing but what its jobs write and the trace."""
    example, command = installed.examples / "runner" / RUNNER_EXAMPLE, installed.program.parent / "sched-runner"
    path = f"{installed.program.parent}{os.pathsep}{installed.environment['PATH']}"
    work = folder / "runner"
    work.mkdir()
    output([command, example / "plan.toml", example / "jobs.toml", "--workers", "1"],
           environment=installed.environment | {"PATH": path}, folder=work)
    expect(" ".join(sorted(file.name for file in work.iterdir())), "beats trace.txt")
    checked = [installed.program, "check", example / "plan.toml", work / "trace.txt", "--workers", "1"]
    expect(output(checked, environment=installed.environment), "conforms\n")
    shutil.rmtree(work)


def words_to_complete(program: Program, shell: str) -> Iterator[tuple[str, str]]:
    """Lines that end within a word of the program's, and what is made of them. zsh takes a value to be joined by `=`."""
    yield from [("sched ru", "sched run "), ("sched help mig", "sched help migrate ")]
    for command in [program.itself, *program.commands]:
        for option in command.options:
            end = "=" if option.value and shell == "zsh" else " "
            yield f"{command.words} --{option.name[:-1]}", f"{command.words} --{option.name}{end}"


def files_to_complete(command: Command, folder: Path) -> Iterator[tuple[str, str]]:
    """Lines that end within the name of a file, and what is made of them: where a file has a place, its whole name."""
    part, whole = f"{folder}/pl", f"{folder}/plan.toml "
    for option in command.options:
        for joint in (" ", "=") if option.value else ():
            line = f"{command.words} --{option.name}{joint}"
            yield line + part, line + (whole if option.is_file else part)
    for given in (whole, "- "):
        line = f"{command.words} "
        for _ in range(places(command)):
            yield line + part, line + whole
            line += given
        yield line + part, line + part


def completions(installed: Installed, shell: Shell) -> None:
    """A shell completes the program's words, and files where they have a place."""
    program = help_text.read(installed.program)
    example = installed.examples / FIRST_EXAMPLE
    files = [line for command in program.commands for line in files_to_complete(command, example)]
    wanted = [*words_to_complete(program, shell.name), *files]
    path = f"{installed.program.parent}{os.pathsep}{installed.environment['PATH']}"
    lines = [line for line, _ in wanted]
    found = completed(shell, lines, installed.share, installed.prefix, installed.environment | {"PATH": path})
    wrong = [f"{line!r}: {made!r}, and not {whole!r}" for (line, whole), made in zip(wanted, found, strict=True) if made != whole]
    if wrong:
        raise ToolError("\n".join([f"{len(wrong)} of {len(wanted)} lines:", *wrong]))


def headers(installed: Installed, folder: Path) -> None:
    """The headers compile as C and as C++ by either name, beside the C library's own sched.h, and say the version."""
    major, minor, patch = installed.version.split(".")
    includes = "\n".join(f'#include <sched/{name}>\n#include "{name}"' for name in HEADERS)
    text = HEADERS_TEST.format(includes=includes, major=major, minor=minor, patch=patch, version=installed.version)
    for language, compile_by, standard in [("c", compiler(), "c11"), ("c++", "c++", "c++11")]:
        source = folder / f"headers.{language}"
        source.write_text(text)
        output([compile_by, "-x", language, f"-std={standard}", "-Wall", "-Wextra", "-Werror", "-pedantic", "-fsyntax-only",
                *installed.config("--cflags"), source], environment=installed.environment)


def c_programs(installed: Installed, source: Path, folder: Path) -> Iterator[Path]:
    """A program in C, built by pkg-config's words over the shared library, and over the archive."""
    archive = Path(installed.config("--variable=libdir")[0]) / "libsched.a"
    shared = installed.config("--cflags", "--libs")
    for name, words in [("over_shared", shared), ("over_archive", [*installed.config("--cflags"), str(archive)])]:
        program = folder / name
        output([compiler(), "-std=c11", "-O2", source, *words, "-o", program], environment=installed.environment)
        yield program


def c_examples(installed: Installed, folder: Path) -> None:
    """The examples in C run over both libraries."""
    expect(installed.config("--modversion")[0], installed.version)
    for source, wanted in C_EXAMPLES.items():
        for program in c_programs(installed, installed.examples / "embed" / source, folder):
            expect(installed.run(program), (installed.examples / "embed" / wanted).read_text())
            program.unlink()
