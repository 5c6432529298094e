"""Shells at a terminal: what stands on a command line once the key of completion was pressed.

A shell is one that is there, or is made of Debian's packages, which are unpacked into a folder, and not installed. It knows of an
installed program what it finds by itself, but for bash, which reads the file that the package bash-completion would read.
"""

from __future__ import annotations

import functools
import os
import pty
import select
import shutil
import subprocess
import tempfile
import time
from collections.abc import Callable, Iterator
from contextlib import contextmanager
from dataclasses import dataclass
from pathlib import Path

from tools import ToolError

PROMPT = "ready> "
COMPLETE, TELL, CLEAR = "\t", "\x18\x0f", "\x15"
SECONDS = 30

# The packages of a shell that is not there, beside those that each Debian has.
PACKAGES = {"zsh": ["zsh", "zsh-common"], "fish": ["fish", "fish-common", "libpcre2-32-0"]}

# What each shell reads first: its prompt, and a key that writes its command line behind the file $TOLD. The program's files are
# below $SHARE, which stands for $PREFIX/share, and those of a shell that was unpacked are below $ROOT.
BASH = r"""
PS1='ready> '
bind -x '"\C-x\C-o": printf "%s\n" "$READLINE_LINE" >> "$TOLD"'
source "$SHARE/bash-completion/completions/sched"
"""
ZSH = r"""
PS1='ready> '
module_path=($ROOT/usr/lib/x86_64-linux-gnu/zsh/*(N) $module_path)
fpath=(${fpath/#$PREFIX\/share/$SHARE} ${fpath/#\/usr\/share/$ROOT/usr/share})
autoload -Uz compinit
compinit -u -D
tell() { print -r -- "$BUFFER" >> $TOLD }
zle -N tell
bindkey -e
bindkey '^X^O' tell
"""
FISH = r"""
function fish_prompt; echo -n 'ready> '; end
function fish_greeting; end
bind \cx\co 'commandline >> $TOLD'
bind \cu 'commandline ""'
"""
# Of each shell the file that it reads first, in the folder that is its home, and its words.
STARTS = {
    "bash": (".bashrc", BASH, ["--noprofile", "-i"]),
    "zsh": (".zshrc", ZSH, ["-d", "-i"]),
    "fish": (".config/fish/config.fish", FISH, ["-i"]),
}


@dataclass(frozen=True)
class Shell:
    """A shell, and the folder that it is unpacked in, where it is not one of the system."""
    name: str
    program: Path
    root: Path | None

    def environment(self) -> dict[str, str]:
        """What a shell that was unpacked is told: where its files and libraries are."""
        if not self.root:
            return {"ROOT": ""}
        return {"ROOT": str(self.root), "LD_LIBRARY_PATH": str(self.root / "usr" / "lib" / "x86_64-linux-gnu")}


@functools.cache
def folder_of_shells() -> tempfile.TemporaryDirectory[str]:
    """The folder in which shells are unpacked. It goes with this process."""
    return tempfile.TemporaryDirectory(prefix="sched-shells-")


def unpacked(name: str) -> Path | None:
    """The folder in which the packages of a shell are unpacked, or None where they can not be had."""
    folder = Path(folder_of_shells().name) / name
    root = folder / "root"
    # Where fish looks for its settings, beside the folder of its program.
    (root / "usr" / "etc" / "fish").mkdir(parents=True)
    try:
        subprocess.run(["apt-get", "download", *PACKAGES[name]], cwd=folder, check=True, capture_output=True, timeout=300)
        for package in folder.glob("*.deb"):
            subprocess.run(["dpkg", "--extract", package, root], check=True, capture_output=True)
    except (OSError, subprocess.SubprocessError):
        return None
    return root


@functools.cache
def found(name: str) -> Shell | None:
    """A shell, or None where it can not be had, which is told."""
    there = shutil.which(name)
    if there:
        return Shell(name, Path(there), None)
    root = unpacked(name) if name in PACKAGES else None
    program = next((file for place in ("bin", "usr/bin") if root and (file := root / place / name).exists()), None)
    if not program:
        print(f"left out, no {name}", flush=True)
        return None
    return Shell(name, program, root)


class Terminal:
    """A terminal in which a command runs, and what it has written."""

    def __init__(self, command: list[str], environment: dict[str, str]) -> None:
        self.written = b""
        self.process, self.end = pty.fork()
        if self.process == 0:
            try:
                os.execve(command[0], command, environment)
            finally:
                os._exit(127)

    def press(self, keys: str) -> None:
        """Presses keys one behind the other."""
        os.write(self.end, keys.encode())

    def wait(self, until: Callable[[], bool]) -> None:
        """Takes what is written, until something holds."""
        last = time.monotonic() + SECONDS
        while not until():
            if time.monotonic() > last:
                raise ToolError(f"nothing more comes: {self.written[-1000:].decode(errors='replace')}")
            if select.select([self.end], [], [], 0.02)[0]:
                self.written += os.read(self.end, 65_536)

    def close(self) -> None:
        """Hangs up, which ends a shell."""
        os.close(self.end)
        os.waitpid(self.process, 0)


@contextmanager
def terminal(command: list[str], environment: dict[str, str]) -> Iterator[Terminal]:
    """A terminal that is closed at the end."""
    opened = Terminal(command, environment)
    try:
        yield opened
    finally:
        opened.close()


def completed(shell: Shell, lines: list[str], share: Path, prefix: str, environment: dict[str, str]) -> list[str]:
    """What a shell makes of lines, each typed with the key of completion behind it."""
    start, text, words = STARTS[shell.name]
    with tempfile.TemporaryDirectory(prefix="sched-home-") as home:
        file, told = Path(home) / start, Path(home) / "told"
        file.parent.mkdir(parents=True, exist_ok=True)
        file.write_text(text)
        told.touch()
        own = {"HOME": home, "TERM": "dumb", "TOLD": str(told), "PREFIX": prefix, "SHARE": str(share), "XDG_DATA_DIRS": str(share)}
        with terminal([str(shell.program), *words], environment | shell.environment() | own) as opened:
            opened.wait(lambda: PROMPT.encode() in opened.written)
            for count, line in enumerate(lines, 1):
                opened.press(line + COMPLETE + TELL)
                opened.wait(lambda: told.read_text().count("\n") >= count)
                opened.press(CLEAR)
        return told.read_text().splitlines()
