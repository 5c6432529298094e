"""The pages of `man`: sched(1) from the program's help, sched-plan(5) from the part of it on plans, and from the rules, and
sched-runner(1) as it stands beside the runner."""

from __future__ import annotations

import re
from collections.abc import Iterator
from dataclasses import dataclass
from pathlib import Path

import roff
import rules
from blocks import Block, Paragraph, parts
from help_text import Command, HelpError, Option, Program

RUNNER_PAGE = Path(__file__).resolve().parents[2] / "examples" / "runner" / "sched-runner.1"
STATUSES = "Exit status:"
PLAN_BEGINS = "The plan is a file of TOML"
EXAMPLE_BEGINS = "Example, with the plan"
KINDS_BEGIN = "KIND is"
# What is said of a shell whose own command hides the program.
NOTES = [
    "zsh has a command of its own with the name", r"\fBsched\fR.", r"There \fBcommand sched\fR calls the program, and",
    r"\fBdisable sched\fR in the file \fI.zshrc\fR leaves it the name.",
]


@dataclass(frozen=True)
class Issue:
    """Which version of the program the pages are of, and the day of it."""
    version: str
    date: str


def begins(part: list[Block], text: str) -> bool:
    """Whether a part of a text begins so."""
    return isinstance(part[0], Paragraph) and part[0].text.startswith(text)


def part_of_run(program: Program, text: str) -> list[Block]:
    """The part of the help of `run` that begins so."""
    for command in program.commands:
        for part in parts(command.text):
            if begins(part, text):
                return part
    raise HelpError(f"no help has a part that begins: {text}")


def summary(about: str) -> str:
    """What a page says beside its name, as lists of pages show it."""
    return roff.escaped(about[0].lower() + about[1:].rstrip("."))


def option_words(option: Option) -> str:
    """An option as a command line has it."""
    value = rf" \fI{option.value}\fR" if option.value else ""
    return rf"\fB{roff.escaped(option.flags[-1])}\fR{value}"


def synopsis(command: Command) -> Iterator[str]:
    """How a command is called."""
    yield f'.SY "{command.words}"'
    for option in command.options:
        if option.name != "help":
            yield option_words(option) if option.is_required else f"[{option_words(option)}]"
    for argument in command.arguments:
        yield rf"\fI{argument.name}\fR"


def words_of(command: Command) -> Iterator[tuple[str, list[str]]]:
    """The arguments and the options of a command, with what is said of each."""
    for argument in command.arguments:
        yield rf"\fI{argument.name}\fR", list(roff.lines(roff.escaped(argument.help)))
    for option in command.options:
        letter = rf"\fB\-{option.letter}\fR, " if option.letter else ""
        yield letter + option_words(option), list(roff.lines(roff.escaped(option.help)))


def described(command: Command) -> Iterator[str]:
    """The part of sched(1) on one command. What sched-plan(5) says is left to it, and the kinds of faults to their own section."""
    yield from [f'.SS "{command.words}"', *roff.lines(roff.escaped(command.about)), *roff.entries(words_of(command))]
    for part in parts(command.text):
        if begins(part, PLAN_BEGINS):
            yield from [".PP", "The plan is described in", r".BR sched\-plan (5)."]
        elif not begins(part, KINDS_BEGIN):
            yield from roff.rendered(part, is_first=False)


def kinds(program: Program) -> list[Block]:
    """The kinds of a plan's faults, which each help that has them tells alike."""
    told = [part for command in program.commands for part in parts(command.text) if begins(part, KINDS_BEGIN)]
    if not told or any(part != told[0] for part in told):
        raise HelpError("the help of the commands does not tell the kinds of faults alike")
    return told[0]


def program_page(program: Program, issue: Issue) -> str:
    """sched(1)."""
    itself = program.itself
    below = parts(itself.text)
    statuses = [part[1:] for part in below if begins(part, STATUSES)]
    if not statuses:
        raise HelpError("the help of the program says no exit status")
    said = [line for part in below if not begins(part, STATUSES) for line in roff.rendered(part, is_first=False)]
    return roff.page("sched", 1, issue.version, issue.date, "User Commands", [
        ("NAME", [rf"sched \- {summary(itself.about)}"]),
        ("SYNOPSIS", [line for command in program.commands for line in synopsis(command)] + [".YS"]),
        ("DESCRIPTION", [*roff.lines(roff.escaped(itself.about)), *said]),
        ("OPTIONS", list(roff.entries(words_of(itself)))),
        ("COMMANDS", [line for command in program.commands for line in described(command)]),
        ("FAULTS OF A PLAN", list(roff.rendered(kinds(program)))),
        ("EXIT STATUS", [line for part in statuses for line in roff.rendered(part)]),
        ("LIMITS", list(limit_rows(rules.limits()))),
        ("NOTES", NOTES),
        ("SEE ALSO", [r".BR sched\-plan (5)"]),
    ])


def marked(text: str) -> str:
    """A text of the rules: what stands between two backquotes is bold."""
    pieces = re.split(r"`([^`]*)`", text)
    return "".join(rf"\fB{roff.escaped(piece)}\fR" if place % 2 else roff.escaped(piece) for place, piece in enumerate(pieces))


def limit_rows(limits: list[tuple[str, str]]) -> Iterator[str]:
    """What has a limit, with it below."""
    yield from roff.entries((marked(what), list(roff.lines(marked(limit)))) for what, limit in limits)


def plan_page(program: Program, issue: Issue) -> str:
    """sched-plan(5)."""
    example = part_of_run(program, EXAMPLE_BEGINS)
    said = [line for rule in rules.of_plan_texts() for line in (r".IP \(bu 2", *roff.lines(marked(rule)))]
    keys = roff.entries((marked(op), list(roff.lines(marked(own)))) for op, own in rules.keys_of_calls())
    return roff.page("sched-plan", 5, issue.version, issue.date, "File Formats", [
        ("NAME", [r"sched\-plan \- the plans of sched(1): which tasks are submitted, and when"]),
        ("DESCRIPTION", list(roff.rendered(part_of_run(program, PLAN_BEGINS)))),
        ("KEYS OF EACH CALL", ["Each call has to have all keys of its own, beside", r"\fBop\fR.", *keys]),
        ("RULES", said),
        ("LIMITS", list(limit_rows(rules.limits_of_plans()))),
        ("EXAMPLE", list(roff.rendered(example))),
        ("SEE ALSO", [".BR sched (1)"]),
    ])


def runner_page(issue: Issue) -> str:
    """sched-runner(1), with the day and the version in its head."""
    text = RUNNER_PAGE.read_text()
    head = '"" "sched"'
    if head not in text.partition("\n")[0]:
        raise HelpError(f"{RUNNER_PAGE.name} does not begin with a head that has: {head}")
    return text.replace(head, f'{issue.date} "sched {issue.version}"', 1)
