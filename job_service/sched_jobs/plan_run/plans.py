"""The plan, as the program tells it before anything runs."""

import os
import subprocess
from collections import deque

from sched_jobs.basics import Fault, tell


def asked(program: str, command: str, plan: str) -> tuple[int, str, str]:
    """What the program does at a command on the plan: its status, what it prints, and what it says on standard error."""
    words, pipe = [program, command, plan], subprocess.PIPE
    try:
        ended = subprocess.run(words, stdin=subprocess.DEVNULL, stdout=pipe, stderr=pipe)
    except OSError as error:
        raise Fault(f"program: {program!r} not started: {error.strerror}") from error
    return ended.returncode, ended.stdout.decode("latin-1"), ended.stderr.decode(errors="backslashreplace").rstrip("\n")


def reason(program: str, plan: str) -> str:
    """Why the plan is refused, in one line. It is empty where the program has no command that says so."""
    status, _, said = asked(program, "lint", plan)
    return said if status == 1 and len(said.splitlines()) == 1 else ""


def printed(program: str, command: str, plan: str) -> list[str]:
    """The lines that the program prints of the plan. A fault is told by its own line, and by the reason where it has one."""
    path = os.path.abspath(plan)
    status, lines, said = asked(program, command, path)
    if said:
        tell(said)
    if status:
        why = reason(program, path)
        if why not in said:
            tell(why)
        raise Fault(f"plan: {plan!r}: 'sched {command}' ended with status {status}")
    return lines.splitlines()


def look_at(plan: str) -> None:
    """The program would not say why a file can't be read."""
    try:
        open(plan, "rb").close()
    except OSError as error:
        raise Fault(f"plan: {plan!r} not read: {error.strerror}") from error


def call_moments(listing: list[str]) -> deque[int]:
    """The moments of all calls of a listing of `sched code`, in their order: a loop's are made so many times."""
    moments: deque[int] = deque()
    offsets: list[int] = []
    times, every = 1, 0
    for line in listing:
        match line.split():
            case [_, "loop" | "endloop" | "halt" as op, *rest]:
                moments.extend(offset + turn * every for turn in range(times) for offset in offsets)
                times, every = (int(rest[0]), int(rest[2])) if op == "loop" else (1, 0)
                offsets = []
            case [_, _, offset, *_]:
                offsets.append(int(offset))
    return moments


def read_plan(program: str, plan: str) -> tuple[list[str], deque[int]]:
    """The name of each task, by its number, and the moments of the plan's calls."""
    look_at(plan)
    try:
        tasks = [line.split()[:2] for line in printed(program, "tasks", plan)]
        names = [name for _, name in tasks]
        if [int(number) for number, _ in tasks] != list(range(len(tasks))):
            raise ValueError("the tasks are not in order")
        return names, call_moments(printed(program, "code", plan))
    except ValueError as error:
        raise Fault(f"program: {program!r} is no 'sched'") from error
