"""The version, which stands in the file `VERSION`, and the other places that have to say it too."""

from __future__ import annotations

import re
from pathlib import Path

TOP = Path(__file__).resolve().parents[2]
FILE = TOP / "VERSION"
FORM = re.compile(r"(\d+)\.(\d+)\.(\d+)")

# Each place: its file, what stands around the version there, and how the version is written.
PLACES = [
    ("include/sched_version.h", r'(?<=#define SCHED_VERSION ")[^"]*(?=")', "{0}.{1}.{2}"),
    ("include/sched_version.h", r"(?<=#define SCHED_VERSION_MAJOR )\d+", "{0}"),
    ("include/sched_version.h", r"(?<=#define SCHED_VERSION_MINOR )\d+", "{1}"),
    ("include/sched_version.h", r"(?<=#define SCHED_VERSION_PATCH )\d+", "{2}"),
    ("crates/command_line/src/version.rt", r'(?<=pub const VERSION: &str = ")[^" ]*(?= )', "{0}.{1}.{2}"),
    ("docs/EMBEDDING.md", r"(?<=dist/sched-)\d+\.\d+\.\d+(?=-linux)", "{0}.{1}.{2}"),
    ("docs/EMBEDDING.md", r"(?<=dist/sched_)\d+\.\d+\.\d+(?=-1_amd64)", "{0}.{1}.{2}"),
    ("docs/EMBEDDING.md", r"(?<=dist/sched-runner_)\d+\.\d+\.\d+(?=-1_all)", "{0}.{1}.{2}"),
    ("docs/EMBEDDING.md", r"(?<=dist/libsched0_)\d+\.\d+\.\d+(?=-1_amd64)", "{0}.{1}.{2}"),
    ("docs/EMBEDDING.md", r"(?<=dist/libsched-dev_)\d+\.\d+\.\d+(?=-1_amd64)", "{0}.{1}.{2}"),
    ("docs/EMBEDDING.md", r"(?<=dist/sched_timers-)\d+\.\d+\.\d+(?=-py3)", "{0}.{1}.{2}"),
    ("docs/EMBEDDING.md", r"(?<=dist/sched_timers-)\d+\.\d+\.\d+(?=\.tar)", "{0}.{1}.{2}"),
    ("docs/EMBEDDING.md", r"(?<=dist/sched-rust-)\d+\.\d+\.\d+(?=\.tar)", "{0}.{1}.{2}"),
    ("docs/EMBEDDING.md", r"(?<=--path sched-rust-)\d+\.\d+\.\d+", "{0}.{1}.{2}"),
    ("docs/EMBEDDING.md", r"(?<=dist/sched-timers-)\d+\.\d+\.\d+(?=\.jar)", "{0}.{1}.{2}"),
    ("bindings/java/README.md", r"(?<=sched-timers-)\d+\.\d+\.\d+(?=\.jar)", "{0}.{1}.{2}"),
    ("crates/program_tests/src/help.rt", r"(?<=--version\nsched )\d+\.\d+\.\d+(?= )", "{0}.{1}.{2}"),
    ("bindings/rust/Cargo.toml", r'(?<=name = "sched"\nversion = ")[^"]*', "{0}.{1}.{2}"),
    ("bindings/rust/Cargo.lock", r'(?<=name = "sched"\nversion = ")[^"]*', "{0}.{1}.{2}"),
    ("bindings/rust/tokio/Cargo.toml", r'(?<=name = "sched-tokio"\nversion = ")[^"]*', "{0}.{1}.{2}"),
    ("bindings/rust/tokio/Cargo.toml", r'(?<=sched = \{ version = ")[^"]*', "{0}.{1}.{2}"),
    ("examples/embed/rust/Cargo.lock", r'(?<=name = "sched"\nversion = ")[^"]*', "{0}.{1}.{2}"),
]


# The two places that name the toolchain with which all is proved.
TOOLCHAIN = {
    "README.md": r"(?<=^Proved with `)[^`]*(?=`)",
    "crates/command_line/src/version.rt": r'(?<=pub const VERSION: &str = ")[^"]*(?=")',
}


class VersionError(Exception):
    """A place that says another version, or a text that is none."""


def numbers(version: str) -> tuple[str, str, str]:
    """The three numbers of a version."""
    form = FORM.fullmatch(version)
    if not form:
        raise VersionError(f"no version: {version}")
    return form[1], form[2], form[3]


def differing() -> list[str]:
    """The places that say another version than the file does."""
    wanted = numbers(current())
    return [f"{file}: {found}" for file, pattern, form in PLACES
            for found in [re.findall(pattern, (TOP / file).read_text())] if found != [form.format(*wanted)]]


def toolchain() -> str:
    """The toolchain that README names, which the program's version has to name too."""
    readme, program = (re.findall(pattern, (TOP / file).read_text(), re.MULTILINE) for file, pattern in TOOLCHAIN.items())
    if len(readme) != 1 or [f"({readme[0]})"] != [found.partition(" ")[2] for found in program]:
        raise VersionError(f"README.md names the toolchain {readme}, and the program's version is {program}")
    return readme[0]


def current() -> str:
    """The version that the file says."""
    return FILE.read_text().strip()


def checked() -> str:
    """The version, which each place says."""
    toolchain()
    places = differing()
    if places:
        raise VersionError("\n".join([f"{FILE.name} says {current()}, and other places do not:", *places]))
    return current()


def write(version: str) -> None:
    """Writes a version to each place, or to none where a place is not found."""
    words = numbers(version)
    texts = {file: (TOP / file).read_text() for file, _, _ in PLACES}
    for file, pattern, form in PLACES:
        texts[file], count = re.subn(pattern, form.format(*words), texts[file])
        if count != 1:
            raise VersionError(f"{file} has {count} places for the version, and not one")
    for file, text in texts.items():
        (TOP / file).write_text(text)
    FILE.write_text(f"{version}\n")
