"""The program's help, as it prints it: its commands, what words each takes, and the text below."""

from __future__ import annotations

import re
import subprocess
from dataclasses import dataclass
from pathlib import Path

ROW = re.compile(r"^ {2,}(\S(?:.*?\S)?)(?: {2,}(\S.*))?$")
OPTION = re.compile(r"^(?:-(\w), )?--([\w-]+)(?: <(\w+)>)?$")
ARGUMENT = re.compile(r"^[<\[](\w+)[>\]]$")
HEADINGS = ("Commands:", "Arguments:", "Options:")
HELP_COMMAND = "help"


class HelpError(Exception):
    """A text that is not in the form of the program's help."""


@dataclass(frozen=True)
class Argument:
    """A word that has its place on the command line."""
    name: str
    help: str

    @property
    def is_file(self) -> bool:
        """Whether the word names a file, which its help says first."""
        return self.help.startswith("The file ")


@dataclass(frozen=True)
class Option:
    """An option, which may have one letter too, and a value."""
    letter: str | None
    name: str
    value: str | None
    help: str
    is_required: bool

    @property
    def is_file(self) -> bool:
        """Whether the value names a file, which the value's name or its help says."""
        return self.value == "FILE" or self.value is not None and self.help.startswith("The file ")

    @property
    def flags(self) -> list[str]:
        """The words that begin it."""
        return [*([f"-{self.letter}"] if self.letter else []), f"--{self.name}"]


@dataclass(frozen=True)
class Command:
    """A command: the words that begin it, and what its help says. `text` is what stands below the options."""
    words: str
    about: str
    arguments: list[Argument]
    options: list[Option]
    text: str

    @property
    def name(self) -> str:
        """The last word that begins it."""
        return self.words.split()[-1]


@dataclass(frozen=True)
class Program:
    """The program itself, and its commands in their order. `help_about` is what it says of its command `help`."""
    itself: Command
    commands: list[Command]
    help_about: str


def rows(lines: list[str]) -> list[tuple[str, str]]:
    """What is said of each term of a list; it may stand on the lines below the term."""
    found: list[tuple[str, str]] = []
    for line in lines:
        row = ROW.match(line)
        if not row:
            raise HelpError(f"no row of a list: {line}")
        deep = len(line) - len(line.lstrip())
        if deep > 6 and found:
            term, said = found.pop()
            found.append((term, f"{said} {line.strip()}".strip()))
        else:
            found.append((row[1], row[2] or ""))
    return found


def option(term: str, said: str, usage: str) -> Option:
    """The option of a row. It is required where the usage names it."""
    words = OPTION.match(term)
    if not words:
        raise HelpError(f"no option: {term}")
    letter, name, value = words.groups()
    return Option(letter, name, value, said, f"--{name} <{value}>" in usage)


def argument(term: str, said: str) -> Argument:
    """The argument of a row."""
    word = ARGUMENT.match(term)
    if not word:
        raise HelpError(f"no argument: {term}")
    return Argument(word[1], said)


def lists_and_text(parts: list[str]) -> tuple[dict[str, list[tuple[str, str]]], str]:
    """The lists in front, by their headings, and the text below them."""
    lists: dict[str, list[tuple[str, str]]] = {heading: [] for heading in HEADINGS}
    place = 0
    while place < len(parts) and parts[place].split("\n")[0] in HEADINGS:
        heading, *lines = parts[place].split("\n")
        lists[heading] = rows(lines)
        place += 1
    return lists, "\n\n".join(parts[place:])


def parse(words: str, printed: str) -> tuple[Command, list[tuple[str, str]]]:
    """The command whose help was printed, and what it says of each command below it."""
    about, *parts = printed.rstrip("\n").split("\n\n")
    if not parts or not parts[0].startswith(f"Usage: {words}"):
        raise HelpError(f"no usage in the help of '{words}'")
    usage = parts[0]
    lists, text = lists_and_text(parts[1:])
    arguments = [argument(*row) for row in lists["Arguments:"]]
    options = [option(*row, usage) for row in lists["Options:"]]
    if not options:
        raise HelpError(f"no options in the help of '{words}'")
    return Command(words, about, arguments, options, text), lists["Commands:"]


def read(program: Path) -> Program:
    """The help of a program, and of each of its commands."""

    def printed(*words: str) -> str:
        return subprocess.run([program, *words, "--help"], check=True, capture_output=True, text=True).stdout

    itself, below = parse("sched", printed())
    commands = [parse(f"sched {name}", printed(name))[0] for name, _ in below if name != HELP_COMMAND]
    if not commands:
        raise HelpError("no commands")
    return Program(itself, commands, dict(below).get(HELP_COMMAND, ""))
