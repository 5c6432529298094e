#!/usr/bin/env python3
"""A service that gives each request 30 milliseconds: it submits a timeout as a request comes, and cancels it as its answer does.

usage: python3 examples/live/service.py [PROGRAM]

It talks to `sched live` through pipes, one line at a time. requests.txt says what comes from outside, and when, in nanoseconds.
PROGRAM is crates/sched/out/sched of this repository where none is named. The status is 0 where what the service said is lines.txt,
what it was answered trace.txt, and the plan of its calls plan.toml, with which the trace conforms.
"""

import subprocess
import sys
import tempfile
from pathlib import Path

HERE = Path(__file__).resolve().parent
BUILT = HERE.parent.parent / "crates" / "sched" / "out" / "sched"
TIMEOUT = 30_000_000
PERIOD = 20_000_000
WORKERS = ("--workers", "1")


class Executor:
    """The other end of the pipes, and what was said there."""

    def __init__(self, program, plan):
        command = [program, "live", *WORKERS, "--plan", plan]
        self.running = subprocess.Popen(command, stdin=subprocess.PIPE, stdout=subprocess.PIPE, text=True, bufsize=1)
        self.lines, self.trace = [], []

    def say(self, line):
        """Says a line, and gives back the words of its answer. The tasks that the line before it ended are told first."""
        self.lines.append(line + "\n")
        self.running.stdin.write(line + "\n")
        print(f"> {line}")
        while (words := self.hear())[1] == "end":
            pass
        return words

    def hear(self):
        """The words of the next line of the trace."""
        self.trace.append(self.running.stdout.readline())
        print(f"< {self.trace[-1]}", end="")
        return self.trace[-1].split()

    def end(self):
        """Ends the input, and answers the status."""
        self.running.stdin.close()
        for line in self.running.stdout:
            self.trace.append(line)
            print(f"< {line}", end="")
        return self.running.wait()


class Service:
    """Requests that wait for their answers, each with the number of its timeout."""

    def __init__(self, executor):
        self.executor, self.waiting = executor, {}
        self.pulse = executor.say(f"call rate {PERIOD} {PERIOD}")[2]

    def clock(self, moment):
        """Moves the clock, and runs each job that is due."""
        self.executor.say(f"clock {moment}")
        while "task" in (begun := self.executor.say("start 0")):
            self.run(begun[begun.index("task") + 1])
            self.executor.say("finish 0 ok 0")

    def run(self, task):
        if task == self.pulse:
            print(f"  {len(self.waiting)} requests wait")
            return
        name = next(name for name, timeout in self.waiting.items() if timeout == task)
        print(f"  request {name} has no answer in time")
        del self.waiting[name]

    def request(self, name):
        self.waiting[name] = self.executor.say(f"call schedule {TIMEOUT}")[2]

    def answer(self, name):
        if name in self.waiting:
            self.executor.say(f"call cancel {self.waiting.pop(name)}")

    def stop(self, _name):
        self.executor.say("call shutdown")
        self.executor.say("call ask")


def differing(executor, plan):
    """The files that are not as they stand here."""
    texts = {"lines.txt": "".join(executor.lines), "trace.txt": "".join(executor.trace), "plan.toml": plan.read_text()}
    return [name for name, text in texts.items() if not (HERE / name).exists() or (HERE / name).read_text() != text]


def main():
    program = sys.argv[1] if len(sys.argv) > 1 else BUILT
    with tempfile.TemporaryDirectory() as folder:
        plan, trace = Path(folder) / "plan.toml", Path(folder) / "trace.txt"
        executor = Executor(program, plan)
        service = Service(executor)
        for line in (HERE / "requests.txt").read_text().splitlines():
            moment, what, *name = line.split()
            service.clock(moment)
            getattr(service, what)("".join(name))
        status = executor.end()
        trace.write_text("".join(executor.trace))
        found = subprocess.run([program, "check", plan, trace, *WORKERS], stdout=subprocess.PIPE, text=True).stdout
        differ = differing(executor, plan)
    print(f"service: status {status}, the trace {found}", end="")
    for name in differ:
        print(f"service: {name} differs")
    return 0 if status == 0 and found == "conforms\n" and not differ else 1


sys.exit(main())
