"""Random and changed plans and events, and the texts that they are made of, for tools/fuzz."""

import re
from pathlib import Path

from fuzz_forms import lines_of

TOP = Path(__file__).resolve().parent.parent
LONGEST = 2**62
LONGEST_PLAN = 1_048_576
MOST_CALLS = 65_536
BOUNDS = [0, 1, 2, 63, 64, 65, 255, 256, 257, 65_535, 65_536, 65_537, 2**32 - 1, 2**32, 2**62 - 1, 2**62, 2**62 + 1,
          2**63 - 1, 2**63, 2**64 - 1, 2**64, -1, -(2**62), -(2**63), -(2**63) - 1]
UNITS = {"ns": 1, "us": 1_000, "ms": 1_000_000, "s": 1_000_000_000,
         "min": 60 * 10**9, "h": 3_600 * 10**9, "d": 86_400 * 10**9}
OLD_UNITS = ("ns", "us", "ms", "s")     # those of version 1
TIMES = ("at", "every", "delay", "first", "period")

# ---- plans that have to be accepted

class Plan:
    """A random plan, as tables of TOML values, and what events may ask of it."""

    def __init__(self, choose):
        self.choose = choose
        self.top = {"version": choose.choice((1, 2))}
        self.blocks = []
        self.last = 0           # the moment of the last call
        self.tasks = 0
        self.named = []         # the tasks of blocks that are made once
        self.moments = [0]      # of calls and of first runs
        for _ in range(choose.choice((0, 1, 1, 2, 2, 3, 3, 4))):
            self.add_block()
        if choose.random() < 0.05:
            self.add_block(is_latest=True)

    def add_block(self, is_latest=False):
        """A block behind the others; the latest one is made once, about as late as may be."""
        choose = self.choose
        unit = choose.choice(("ns", "ns", "ns", *(OLD_UNITS if self.top["version"] == 1 else UNITS)))
        at = -(-self.last // UNITS[unit]) + choose.choice((0, 0, 1, choose.randrange(30)))
        times = choose.choice((1, 1, 1, 2, 3, choose.randrange(1, 40)))
        if is_latest:
            at, times = max(at, LONGEST // UNITS[unit] - choose.choice((0, choose.randrange(1_000)))), 1
        own, calls, offset = [], [], 0
        for _ in range(choose.choice((0, 1, 2, 4, 6, 9, 12))):
            offset = min(offset + choose.choice((0, 0, 1, choose.randrange(10))), LONGEST // UNITS[unit] - at)
            calls.append(self.new_call(at, offset, UNITS[unit], times, own))
        every = offset + choose.choice((0, 0, 1, choose.randrange(20)))
        if calls:
            self.last = (at + (times - 1) * every + offset) * UNITS[unit]
            self.moments.append(self.last)
        if times == 1:
            self.named += own
        header = {"at": at, "unit": unit, "times": times, "every": every}
        defaults = {"at": 0, "unit": "ns", "times": 1}
        if times == 1:
            defaults["every"] = every
        tables = [without_defaults(choose, header, defaults), *calls]
        if self.top["version"] == 2:
            tables = [with_own_units(choose, keys, unit) for keys in tables]
        self.blocks.append((tables[0], tables[1:]))

    def new_call(self, at, offset, nanos, times, own):
        """A call of a block; `own` are the names of its tasks before this one."""
        choose = self.choose
        op = choose.choice(("schedule",) * 3 + ("execute", "rate", "fixed", "cancel", "policy", "ask") * 2 + ("shutdown", "shutdown_now"))
        known = own + self.named
        if op == "cancel" and not known:
            op = "schedule"
        call = {"op": op, "at": offset}
        if op in ("schedule", "execute", "rate", "fixed"):
            first, span = (choose.choice((0, 1, choose.randrange(40), choose.randrange(-9, 40))) for _ in range(2))
            if choose.random() < 0.03:
                first, span = (LONGEST // nanos - choose.choice((0, 1, choose.randrange(1_000))) for _ in range(2))
            call["name"] = choose.choice(("t", "task-", "_", "Z" * 20)) + str(self.tasks)
            if op == "execute":
                first = 0
            else:
                call |= {"delay": first} if op == "schedule" else {"first": first, ("period" if op == "rate" else "delay"): span}
            own.append(call["name"])
            self.tasks += times
            self.moments += [(at + offset) * nanos, (at + offset + max(first, 0)) * nanos]
        elif op == "cancel":
            call["name"] = choose.choice(known)
        elif op == "policy":
            call |= {"which": choose.choice(("continue", "execute", "remove")), "value": choose.random() < 0.5}
        return without_defaults(choose, call, {"at": 0})

    def text(self):
        """The plan as a TOML text, in one of many layouts."""
        choose = self.choose
        if choose.random() < 0.2:
            blocks = [inline(choose, header | ({"call": calls} if calls else {})) for header, calls in self.blocks]
            return (table(choose, self.top) + f"block = [{', '.join(blocks)}]\n").encode()
        parts = [table(choose, self.top)]
        for header, calls in self.blocks:
            parts.append("[[block]]\n" + table(choose, header))
            if choose.random() < 0.2:
                parts.append(f"call = [{', '.join(inline(choose, call) for call in calls)}]\n")
            else:
                parts += ["[[block.call]]\n" + table(choose, call) for call in calls]
        return "".join(parts).encode()


def with_own_units(choose, keys, unit):
    """The keys of a table of version 1 whose block has this unit, as those of version 2: each time has a unit of its own,
    at times a finer one."""
    own = {}
    for key, value in keys.items():
        if key in TIMES:
            nanos = value * UNITS[unit]
            units = [name for name, length in UNITS.items() if nanos % length == 0 and abs(nanos) // length < 2**63]
            chosen = choose.choice(units) if choose.random() < 0.3 else unit
            own |= {key: nanos // UNITS[chosen], key + "_unit": chosen}
        elif key != "unit":
            own[key] = value
    return without_defaults(choose, own, {f"{time}_unit": "ns" for time in TIMES})


def without_defaults(choose, keys, defaults):
    """Keys with their values, at times in another order, and mostly without those that have their default."""
    kept = [(key, value) for key, value in keys.items() if defaults.get(key, None) != value or choose.random() < 0.3]
    if choose.random() < 0.3:
        choose.shuffle(kept)
    return dict(kept)


def table(choose, keys):
    """Keys and values, each on a line, with comments and empty lines between."""
    space = choose.choice(("", " ", "\t"))
    end = choose.choice(("\n", "\n", "\n", "\n\n", "  # a comment\n", "\r\n"))
    return "".join(f"{spelled_key(choose, key)}{space}={space}{spelled(choose, value)}{end}" for key, value in keys.items())


def inline(choose, keys):
    return "{" + ", ".join(f"{spelled_key(choose, key)} = {spelled(choose, value)}" for key, value in keys.items()) + "}"


def spelled_key(choose, key):
    return choose.choice((f'"{key}"', f"'{key}'")) if choose.random() < 0.02 else key


def spelled(choose, value):
    """A value in one of the ways in which TOML writes it. A `Raw` is a text as it stands."""
    if isinstance(value, Raw):
        return value.text
    if isinstance(value, bool):
        return "true" if value else "false"
    if isinstance(value, list):
        return f"[{', '.join(inline(choose, each) for each in value)}]"
    if isinstance(value, int):
        others = (f"{value:_}", f"{value:+}", hex(value), oct(value), bin(value)) if value >= 0 else (f"{value:_}",)
        return choose.choice(others) if choose.random() < 0.05 else str(value)
    return choose.choice((f"'{value}'", f'"""{value}"""', f"'''{value}'''")) if choose.random() < 0.05 else f'"{value}"'


class Raw:
    def __init__(self, text):
        self.text = text


# ---- plans, events and traces that are changed

WORDS = """version block call at unit times every op name delay first period which value schedule rate fixed cancel policy
at_unit every_unit delay_unit first_unit period_unit min h d
shutdown shutdown_now ask continue execute remove true false ns us ms s a b clock start finish ok fail submit refuse illegal
rejected due yes no none again queue running terminated idle task run done failed dropped ended outside purge end error backward
too far worker busy not""".split()
STRANGE_NAMES = ['""', '"a b"', '"' + "a" * 32 + '"', '"' + "a" * 33 + '"', '"none"', '"a.b"', '"\\u00e9"', '"-_9Z"']
STRANGE_BYTES = (b"\0", b"\n", b"\r\n", b" ", b"\xff", b"\xc3\xa9", b'"', b"]", b"0", b"#", b"=")
STRANGE = ['""', '"a b"', '"' + "a" * 33 + '"', '"year"', '"run"', '"ns"', '"a"', "true", "1.5", "nan", "1979-05-27",
           "07:32:00", "[]", "{}", "[1]", "[[]]", '{op="ask"}', '[{op="ask"}, 1]', '"\\u0061"', '"""\na"""', "-0", "+1",
           "0x10", "1_0"]


def tables_of(plan):
    """The tables of a plan: its top, and of each block the header and the calls."""
    return [plan.top] + [each for header, calls in plan.blocks for each in (header, *calls)]


def some_key(choose, plan):
    """A table of a plan, and one of its keys."""
    keys = choose.choice(tables_of(plan))
    return keys, choose.choice(list(keys) or ["at"])


def some_block(choose, plan):
    """The header and the calls of a block, of none in the plan where it has none."""
    return choose.choice(plan.blocks) if plan.blocks else ({}, [])


def some_name(choose, plan):
    names = [each["name"] for each in tables_of(plan) if "name" in each]
    return choose.choice(names + [Raw(text) for text in STRANGE_NAMES])


def drop_key(choose, plan):
    keys, key = some_key(choose, plan)
    keys.pop(key, None)


def rename_key(choose, plan):
    keys, key = some_key(choose, plan)
    keys[choose.choice(WORDS)] = keys.pop(key, 1)


def set_strange(choose, plan):
    keys, key = some_key(choose, plan)
    keys[key] = Raw(choose.choice(STRANGE))


def set_bound(choose, plan):
    keys, key = some_key(choose, plan)
    keys[choose.choice((key, "at", "delay", "first", "period"))] = choose.choice(BOUNDS)


def set_other(choose, plan):
    keys, key = some_key(choose, plan)
    keys[key] = choose.choice([value for each in tables_of(plan) for value in each.values()] + WORDS)


def set_header(choose, plan):
    header, _ = some_block(choose, plan)
    header[choose.choice(("at", "times", "every", "unit", "at_unit", "every_unit"))] = choose.choice((*BOUNDS, *UNITS, "year"))


def set_unit(choose, plan):
    choose.choice(tables_of(plan))[choose.choice(TIMES) + "_unit"] = choose.choice((*UNITS, "year", 1))


def set_version(choose, plan):
    plan.top["version"] = choose.choice((1, 2, 2, 3, 0, -1))


def set_name(choose, plan):
    _, calls = some_block(choose, plan)
    if calls:
        choose.choice(calls)["name"] = some_name(choose, plan)


def add_cancel(choose, plan):
    _, calls = some_block(choose, plan)
    calls.append({"op": "cancel", "name": some_name(choose, plan)})


def add_call(choose, plan):
    _, calls = some_block(choose, plan)
    calls.insert(choose.randrange(len(calls) + 1), dict(choose.choice(tables_of(plan))))


def add_block(choose, plan):
    plan.blocks.insert(choose.randrange(len(plan.blocks) + 1), some_block(choose, plan))


SPOILS = (drop_key, rename_key, set_strange, set_bound, set_other, set_header, set_unit, set_version, set_name, add_cancel,
          add_call, add_block)


def some_place(choose, text):
    """Where a piece of a text starts and stops."""
    start = choose.randrange(len(text) + 1)
    return start, min(len(text), start + choose.choice((0, 1, 1, 2, 5, 20, 200)))


def flip(choose, text, _others):
    start, _ = some_place(choose, text)
    return text[:start] + bytes(byte ^ (1 << choose.randrange(8)) for byte in text[start:start + 1]) + text[start + 1:]


def insert(choose, text, _others):
    start, _ = some_place(choose, text)
    return text[:start] + choose.choice(STRANGE_BYTES) + text[start:]


def delete(choose, text, _others):
    start, stop = some_place(choose, text)
    return text[:start] + text[stop:]


def double(choose, text, _others):
    start, stop = some_place(choose, text)
    return text[:stop] + text[start:stop] * choose.choice((1, 1, 2, 50)) + text[stop:]


def truncate(choose, text, _others):
    return text[:some_place(choose, text)[0]]


def splice(choose, text, others):
    other = choose.choice(others)
    return truncate(choose, text, others) + other[some_place(choose, other)[0]:]


def graft(choose, text, others):
    other = choose.choice(others)
    (start, _), (first, last) = some_place(choose, text), some_place(choose, other)
    return text[:start] + other[first:last] + text[start:]


def nest(choose, text, _others):
    start, _ = some_place(choose, text)
    return text[:start] + nested(choose) + text[start:]


def with_piece(choose, text, pattern, made):
    """The text with one piece of this pattern made another."""
    pieces = list(re.finditer(pattern, text))
    if not pieces:
        return text
    piece = choose.choice(pieces)
    return text[:piece.start()] + made(piece.group()) + text[piece.end():]


def bound(choose, text, _others):
    return with_piece(choose, text, rb"-?[0-9]+", lambda _: str(choose.choice(BOUNDS)).encode())


def nudge(choose, text, _others):
    return with_piece(choose, text, rb"-?[0-9]+", lambda digits: str(int(digits[:30]) + choose.choice((-1, 1, 10))).encode())


def other_word(choose, text, _others):
    return with_piece(choose, text, rb"[A-Za-z]+", lambda _: choose.choice(WORDS).encode())


def double_line(choose, text, _others):
    lines = lines_of(text) or [b"\n"]
    lines.insert(choose.randrange(len(lines) + 1), choose.choice(lines))
    return b"".join(lines)


def move_line(choose, text, _others):
    lines = lines_of(text) or [b"\n"]
    lines.insert(choose.randrange(len(lines)), lines.pop(choose.randrange(len(lines))))
    return b"".join(lines)


def drop_line(choose, text, _others):
    lines = lines_of(text) or [b"\n"]
    lines.pop(choose.randrange(len(lines)))
    return b"".join(lines)


CHANGES = (flip, insert, delete, double, truncate, splice, graft, bound, bound, nudge, other_word, double_line, move_line,
           drop_line)


def changed(choose, text, others):
    """The text with some changes; others are texts that pieces are taken from."""
    for _ in range(choose.choice((1, 1, 1, 2, 3, 6))):
        text = (nest if choose.random() < 0.02 else choose.choice(CHANGES))(choose, text, others)
    return text


def nested(choose):
    """A value, or a table's head, that is nested deeply."""
    depth = choose.choice((1, 2, 60, 79, 80, 81, 127, 128, 129, 300, 5_000, 100_000))
    front, back = choose.choice((("[", "]"), ("{a=", "}"), ("[{a=", "}]"), ("a.", ""), ("'", "'"), ("[[", "]]")))
    around = choose.choice(("\nx = {}\n", "\n[{}]\n", "\n[[{}]]\n", "\n{}\n", "{}"))
    return around.format(front * depth + "1" + back * depth).encode()


# ---- events

def start_line(choose, workers, busy):
    """A worker asks for work, mostly one that there is. It is one of the busy ones then."""
    busy.append(choose.randrange(workers) if choose.random() < 0.98 else choose.randrange(256))
    return f"start {busy[-1]}\n"


def some_events(choose, plan, workers):
    """Event lines that mostly are answered by something else than an error."""
    lines, now, busy = [], 0, []
    moments = sorted(set(plan.moments))
    for _ in range(choose.choice((0, 3, 10, 30, 120))):
        kind = choose.choice(("clock",) * 4 + ("start",) * 4 + ("finish",) * (4 if busy else 1) + ("cancel",))
        if kind == "clock":
            later = [moment for moment in moments if moment >= now]
            now = choose.choice((now, now + choose.randrange(30), *later[:1] * 3)) + choose.choice((0, 0, 0, 1))
            lines.append(f"clock {now if choose.random() < 0.95 else choose.choice(BOUNDS[:20])}\n")
        elif kind == "start":
            lines.append(start_line(choose, workers, busy))
        elif kind == "finish":
            worker = busy.pop(choose.randrange(len(busy))) if busy else choose.randrange(workers)
            value, code = (choose.choice((choose.randrange(9), choose.randrange(2**bits), 2**bits - 1)) for bits in (64, 32))
            lines.append(f"finish {worker} ok {value}\n" if choose.random() < 0.9 else f"finish {worker} fail {code}\n")
        else:
            task = choose.randrange(max(plan.tasks, 1)) if choose.random() < 0.9 else choose.choice((plan.tasks, 2**32 - 1))
            lines.append(f"cancel {task}\n")
    return "".join(lines).encode()


# ---- plans of great size

def long_plan(choose, text):
    """A plan of about the greatest size."""
    size = LONGEST_PLAN + choose.choice((-1, 0, 1, 10_000)) - len(text) - 1
    return text + choose.choice((b"#", b"\n", b" ", b"x")) * size + b"\n"


def deep_plan(choose, text):
    """A plan with something at its end, or in its middle, that is nested deeply."""
    lines = lines_of(text)
    lines.insert(choose.choice((len(lines), choose.randrange(len(lines) + 1))), nested(choose))
    return b"".join(lines)


def large_plan(choose, _text):
    """A plan with about as many blocks or calls as it may have."""
    ask = b'[[block.call]]\nop = "ask"\n'
    count = choose.choice((255, 256, 257))
    return b"version = %d\n" % choose.choice((1, 2)) + choose.choice((
        b"[[block]]\n" * count,
        b"[[block]]\n" + ask * count,
        b"[[block]]\ntimes = %d\nevery = 0\n" % (MOST_CALLS // choose.choice((1, 2, 3))) + ask * choose.choice((1, 2, 3)),
        (b"[[block]]\ntimes = 256\nevery = 1\n" + ask) * count,
    ))


# ---- seeds

ROWS = [
    'op="schedule",name="a",delay=-5; op="rate",name="b",first=1,period=0; op="shutdown"; '
    'op="fixed",name="c",first=1,delay=-1; op="rate",name="d",first=1,period=1',
    'op="policy",which="execute",value=false; op="schedule",name="a",delay=1; op="schedule",name="b",delay=100; '
    'op="rate",name="c",first=3,period=3; at=5,op="shutdown"; at=6,op="shutdown"; at=6,op="ask"',
    'op="fixed",name="a",first=0,delay=4; at=1,op="shutdown"; at=2,op="policy",which="continue",value=true; '
    'at=9,op="policy",which="continue",value=false',
    'op="rate",name="a",first=0,period=5; op="schedule",name="b",delay=6; at=1,op="cancel",name="b"; at=8,op="ask"',
    'at=4611686018427387904,op="rate",name="a",first=4611686018427387904,period=4611686018427387904',
    'op="execute",name="a"; op="rate",name="b",first=0,period=5; op="schedule",name="c",delay=3; at=1,op="cancel",name="a"; '
    'at=4,op="shutdown_now"; at=4,op="execute",name="d"; at=5,op="shutdown_now"; at=5,op="ask"',
]
EVENT_ROWS = [
    "clock 0; start 0; clock 3; finish 0 ok 1; clock 7; start 0; clock 9; finish 0 ok 1",
    "clock 5; clock 4; start 9; start 0; start 0; finish 0 ok 2; finish 0 ok 2; cancel 99; cancel 0",
    "clock 10; start 0; clock 25; start 1; finish 0 ok 1; start 1; cancel 0; finish 1 fail 3",
    "clock 4611686018427387904; start 0; clock 4611686018427387905; finish 255 ok 18446744073709551615",
]


def seeds():
    """The texts that inputs are made of: those of examples/, and a few of this file."""
    def read(name):
        return [path.read_bytes() for path in sorted((TOP / "examples").glob(f"*/{name}"))]

    good = read("plan.toml")
    for row in ROWS:
        calls = ", ".join("{%s}" % call for call in row.split("; "))
        good.append(f"version = 1\n[[block]]\ncall = [{calls}]\n".encode())
    long = b"version = 1\n" + b"".join(b'[[block]]\nat = %d\n[[block.call]]\nop = "ask"\n' % n for n in range(250))
    return {"good": good, "plans": [*good, long, b""], "traces": read("trace.txt"),
            "events": read("events.txt") + [row.replace("; ", "\n").encode() + b"\n" for row in EVENT_ROWS]}
