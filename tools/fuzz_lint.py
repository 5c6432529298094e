"""What `sched lint` tells of plans, events and traces, held by tools/fuzz against what the other commands say of them."""

import re
from pathlib import Path

from fuzz_forms import PLAN_FAULT, end_of_events, lines_of

NO_LIMIT = 2**64
WARNING = re.compile(rb"plan\.toml(:[0-9]+)?: warning: block [1-9][0-9]*, call [1-9][0-9]*, [^\x00-\x1f\x7f]+\n")


class Lints:
    """Reasons, which have to go with a fault, a line of events or a finding that is known."""

    def __init__(self, run, wants, found):
        self.run, self.wants, self.found = run, wants, found

    def plan(self, fault, text):
        """Of a plan with this line on standard error, which is empty where it is one."""
        reason = self.reason("plan.toml", "lint", "plan.toml")
        self.wants((reason is None) == (fault == b""), f"of {fault} the reason is {reason}")
        if reason is None:
            return
        block, call = (int(number) for number in PLAN_FAULT.fullmatch(fault).groups()[1:])
        place = (b"block %d" % block if block else b"") + (b", call %d" % call if call else b"")
        self.wants(place in reason, f"no {place} in {reason}")
        line = re.match(rb":([0-9]+)", reason)
        self.wants(line is None or 0 < int(line[1]) <= text.count(b"\n") + 1, f"no such line: {reason}")

    def events(self, events):
        """Of events, beside a plan that is one."""
        Path("events.txt").write_bytes(events)
        _, fault = end_of_events(events, NO_LIMIT)
        reason = self.reason("events.txt", "lint", "plan.toml", "--events", "events.txt")
        if fault:
            number = fault.split()[-1]
            self.wants(reason is not None and reason.startswith(b":%s: " % number), f"of {fault} the reason is {reason}")
        else:
            self.wants(reason is None, f"of events: {reason}")

    def trace(self, finding, trace, workers):
        """Of a trace that conforms, or breaks at a line. Each line that is told is put in its place."""
        Path("trace.txt").write_bytes(trace)
        reason = self.reason("trace.txt", "lint", "plan.toml", "--trace", "trace.txt", "--workers", str(workers))
        if finding == 0:
            self.wants(reason is None, f"it conforms: {reason}")
            return
        self.wants(reason is not None and reason.startswith(b":%d: " % finding), f"it breaks at {finding}: {reason}")
        front = b"".join(lines_of(trace)[:finding - 1])
        for line in told_lines(reason):
            place = self.found(front + line + b"\n", workers)
            self.wants(place == 0 or place > finding, f"{line} can't stand in line {finding}: it breaks at {place}")
        others = re.search(rb"conforms with --workers ([0-9]+)", reason)
        if others:
            self.wants(self.found(trace, int(others[1])) == 0, f"it does not conform with {others[1]}")

    def reason(self, name, *command):
        """What is told behind the file's name; none where all is fine."""
        ended = self.run(*command)
        if (ended.code, ended.out) == (0, b"fine\n"):
            self.warnings(ended.err, command)
            return None
        is_line = ended.err.startswith(name.encode()) and re.fullmatch(rb"[^\x00-\x1f\x7f]+\n", ended.err)
        self.wants(ended.code == 1 and ended.out == b"" and is_line, f"no reason: {ended.code} {ended.out[:80]} {ended.err[:200]}")
        return ended.err[len(name):]

    def warnings(self, told, command):
        """What is told of a plan that is one: a line for each warning; with --strict they are a fault, and nothing else is told."""
        self.wants(all(WARNING.fullmatch(line) for line in lines_of(told)), f"no warnings: {told[:200]}")
        strict = self.run(*command, "--strict")
        wanted = (1, b"", told) if told else (0, b"fine\n", b"")
        self.wants((strict.code, strict.out, strict.err) == wanted, f"--strict: {strict.code} {strict.out} {strict.err[:200]}")


def told_lines(reason):
    """The lines that could stand where a trace breaks."""
    told = re.search(rb'; ((?:"[^"\\]*"(?:, | or )?)+) (?:could stand here|is wanted)', reason)
    return re.findall(rb'"([^"\\]*)"', told[1]) if told else []
