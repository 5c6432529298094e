"""Lines for `sched live`, and how a run over them has to end, as tools/fuzz looks for it."""

from fuzz_forms import EVENT_FORMS, LONGEST_EVENT, has_form, lines_of
from fuzz_inputs import start_line

LONGEST = 2**62
# S is a span, 0 to 2^62, and P one of 1 to 2^62.
CALL_LINES = """call schedule S
call execute
call rate S P
call fixed S P
call cancel K
call policy continue|execute|remove true|false
call shutdown
call shutdown_now
call ask"""
SUBMITS = (b"schedule", b"execute", b"rate", b"fixed")


def is_call(line):
    """Whether a line, its newline with it, is one of a call, whatever task it names."""
    words = line.split(b" ")
    spans = {"S": 0, "P": 1}
    for form in (text.split(" ") for text in CALL_LINES.splitlines()):
        plain = " ".join("V" if word in spans else word for word in form)
        if has_form(line, plain):
            return all(spans[wanted] <= int(word) <= LONGEST for word, wanted in zip(words, form) if wanted in spans)
    return False


class End:
    """How a run ends: how many lines are answered, what stands on standard error then, and how many calls were made."""

    def __init__(self, text):
        self.now = self.earliest = self.tasks = self.calls = self.lines = 0
        self.err = b""
        for line in lines_of(text):
            self.err = self.fault(line)
            if self.err:
                return
            self.lines += 1

    def fault(self, line):
        """The fault of the next line, and nothing where it is answered."""
        if len(line) <= LONGEST_EVENT + 1 and has_form(line, EVENT_FORMS):
            self.clock(line)
            return b""
        if not is_call(line):
            return b"sched: event line %d\n" % (self.lines + 1)
        words = line.split()
        if words[1] == b"cancel" and int(words[2]) >= self.tasks:
            return b""
        moment = max(self.now, self.earliest)
        if moment > LONGEST:
            return b"sched: full\n"
        self.now = moment
        self.calls += 1
        self.tasks += words[1] in SUBMITS
        return b""

    def clock(self, line):
        words = line.split()
        if words[0] == b"clock" and self.now <= int(words[1]) <= LONGEST:
            self.now = int(words[1])
            self.earliest = self.now + 1


def span(choose, least):
    """A span, mostly a short one."""
    if choose.random() < 0.97:
        return least + choose.randrange(12)
    return choose.choice((least, LONGEST, LONGEST - 1, LONGEST + choose.choice((0, 0, 1))))


def some_task(choose, tasks):
    """A task, where so many were submitted, mostly one of these."""
    return choose.randrange(max(tasks, 1)) if choose.random() < 0.9 else choose.choice((tasks, tasks + 1, 2**32 - 1))


def some_call(choose, tasks):
    """The words of a call, where so many tasks were submitted."""
    kind = choose.choice(("schedule",) * 6 + ("execute", "rate", "rate", "fixed", "fixed", "ask") * 2
                         + ("cancel",) * 5 + ("policy",) * 2 + ("shutdown", "shutdown_now"))
    if kind in ("shutdown", "shutdown_now") and choose.random() < 0.6:
        kind = "ask"
    if kind == "schedule":
        return f"{kind} {span(choose, 0)}"
    if kind in ("rate", "fixed"):
        return f"{kind} {span(choose, 0)} {span(choose, 1)}"
    if kind == "cancel":
        return f"{kind} {some_task(choose, tasks)}"
    if kind == "policy":
        return f"{kind} {choose.choice(('continue', 'execute', 'remove'))} {choose.choice(('true', 'false'))}"
    return kind


def some_lines(choose, workers):
    """Lines of calls and events that mostly are answered by something else than an error."""
    lines, now, tasks, busy = [], 0, 0, []
    for _ in range(choose.choice((0, 3, 10, 30, 120, 400))):
        kind = choose.choice(("call",) * 5 + ("clock",) * 3 + ("start",) * 4 + ("finish",) * (4 if busy else 1) + ("cancel",))
        if kind == "call":
            call = some_call(choose, tasks)
            tasks += call.split()[0].encode() in SUBMITS
            lines.append(f"call {call}\n")
        elif kind == "clock":
            now += choose.choice((0, 1, 1, 2, 5, 9))
            lines.append(f"clock {now if choose.random() < 0.98 else choose.choice((0, LONGEST - 1, LONGEST + 1, 2**64 - 1))}\n")
        elif kind == "start":
            lines.append(start_line(choose, workers, busy))
        elif kind == "finish":
            worker = busy.pop(choose.randrange(len(busy))) if busy else choose.randrange(workers)
            lines.append(f"finish {worker} ok {choose.randrange(9)}\n" if choose.random() < 0.9 else f"finish {worker} fail 7\n")
        else:
            lines.append(f"cancel {some_task(choose, tasks)}\n")
    return "".join(lines).encode()
