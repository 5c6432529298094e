"""Timers that keep what they were asked and what they answered, so that `sched check` can say
whether the two belong together; and what the tests of timers and of pools share."""

import os
import subprocess
import sys
import tempfile
from pathlib import Path

PYTHON = Path(__file__).resolve().parent.parent
sys.path.insert(0, str(PYTHON))

from sched_timers.timers import Policy, Status, Timers

BLOCK = 256   # calls that a block of a plan may have
SPANS = {"schedule": ["delay"], "execute": [], "rate": ["first", "period"],
         "fixed": ["first", "delay"]}
LINED = {*SPANS, "cancel", "poll", "finish", "fail", "ask", "set_policy", "shutdown",
         "shutdown_now"}


class Recorded(Timers):
    """Timers that keep the calls of a plan that were made, each with its moment, and the trace.
    Calls for many are not kept."""

    def __init__(self, workers):
        self.workers, self.plan, self.trace, self.polls = workers, [], [], 0
        super().__init__(workers)

    def _call(self, name, *words):
        status = super()._call(name, *words)
        if name in LINED and status in (Status.DONE, Status.SHUT, Status.IDLE):
            text = self.text().decode()
            self.trace.append(text)
            self.polls += name == "poll"
            self._note(name, words, text.split())
        return status

    def _note(self, name, words, answer):
        """Notes a call of a plan, at the moment that its line tells. A cancel is none, but an
        event."""
        if name in SPANS:
            spans = [f"{span} = {length}" for span, length in zip(SPANS[name], words[1:])]
            self._write(answer, f'op = "{name}"', f'name = "t{answer[2]}"', *spans)
        elif name == "set_policy":
            which, value = Policy(words[1]).name.lower(), str(words[2]).lower()
            self._write(answer, 'op = "policy"', f'which = "{which}"', f"value = {value}")
        elif name in ("ask", "shutdown", "shutdown_now"):
            self._write(answer, f'op = "{name}"')

    def _write(self, answer, *members):
        self.plan.append(f"    {{ {', '.join([f'at = {answer[0]}', *members])} }},\n")

    def words(self):
        """The words of each line of the trace."""
        return [line.split() for text in self.trace for line in text.splitlines()]

    def plan_text(self):
        """The plan of the calls."""
        firsts = range(0, len(self.plan), BLOCK)
        blocks = ["".join(self.plan[first:first + BLOCK]) for first in firsts]
        return "version = 2\n" + "".join(f"\n[[block]]\ncall = [\n{block}]\n" for block in blocks)


def found(program, timers, trace):
    """What the program `sched` finds of a trace, beside the plan of the calls that recorded timers
    took."""
    with tempfile.TemporaryDirectory() as folder:
        plan_file, trace_file = Path(folder) / "plan.toml", Path(folder) / "trace.txt"
        plan_file.write_text(timers.plan_text())
        trace_file.write_text(trace)
        words = [program, "check", plan_file, trace_file, "--workers", str(timers.workers)]
        told = subprocess.run(words, stdout=subprocess.PIPE, stderr=subprocess.STDOUT, text=True)
        return told.stdout


def refuses(kind, call, *words):
    """A call that has to raise this error."""
    try:
        call(*words)
    except kind as refused:
        return refused
    raise AssertionError(f"{call} {words} was not refused")


def end_with_traces(traces):
    """The end of a test: where SCHED names the program `sched`, it checks the traces."""
    if "SCHED" in os.environ:
        traces(os.environ["SCHED"])
    else:
        print("SCHED names no program: no trace was checked")
    print("each answer came")
