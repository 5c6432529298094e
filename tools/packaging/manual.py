"""The files that describe the program and the runner to `man` and to shells."""

from __future__ import annotations

import subprocess
from pathlib import Path

import completions
import help_text
import man_pages

TOP = Path(__file__).resolve().parents[2]


def day() -> str:
    """The day of the last commit, which pages carry."""
    command = ["git", "-C", str(TOP), "log", "-1", "--format=%cs"]
    return subprocess.run(command, check=True, capture_output=True, text=True).stdout.strip()


def files(program: Path, version: str) -> dict[str, str]:
    """The text of each file, by its place in the folder."""
    read = help_text.read(program)
    issue = man_pages.Issue(version, day())
    return {
        "man/man1/sched.1": man_pages.program_page(read, issue),
        "man/man1/sched-runner.1": man_pages.runner_page(issue),
        "man/man5/sched-plan.5": man_pages.plan_page(read, issue),
        "completions/sched.bash": completions.bash(read),
        "completions/_sched": completions.zsh(read),
        "completions/sched.fish": completions.fish(read),
    }


def write(program: Path, folder: Path, version: str) -> None:
    """Writes each file."""
    for place, text in files(program, version).items():
        (folder / place).parent.mkdir(parents=True, exist_ok=True)
        (folder / place).write_text(text)
