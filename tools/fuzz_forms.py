"""What the program may write, as tools/fuzz looks for it: each line and each kind of fault, in a form."""

import re

LONGEST_EVENT = 62
KINDS = ("TooLong Toml Version UnknownKey Missing WrongType BadUnit BadTimes Negative BadName DuplicateName UnknownName "
         "Ambiguous OutOfOrder TooLarge TooMany").split()
FAULT_LINES = """sched: plan file not read
sched: plan: KIND block B call C
sched: trace file not read
sched: trace file too long
sched: event line N
sched: full
sched: read fault
sched: write fault
sched: out of memory""".splitlines()
PLAN_FAULT = re.compile(rf"sched: plan: ({'|'.join(KINDS)}) block (0|[1-9][0-9]*) call (0|[1-9][0-9]*)\n".encode())

# Of a form each word is a text, or texts between '|', or a number: V below 2^64, K below 2^32, W below 256.
CALL_FORMS = """V submit K schedule|rate|fixed due V
V refuse K illegal|rejected
V cancel K yes|no|none
V policy continue|execute|remove true|false
V shutdown
V shutdown again
V shutdown now
V ask queue K running K shutdown yes|no terminated yes|no"""
END_FORMS = "V end K"
ANSWER_FORMS = """V clock
V start W idle
V start W task K run V due V
V finish W task K run V again due V
V finish W task K run V done V
V finish W task K run V failed K
V finish W task K run V dropped|ended
V outside K yes|no|none
V error backward|busy
V error too far
V error no worker|task
V error not running"""
EVENT_FORMS = """clock V
start W
finish W ok V
finish W fail K
cancel K"""
CODE_FORMS = """K submit V schedule V
K submit V rate|fixed V V
K illegal V
K cancel V task|here K
K policy V continue|execute|remove true|false
K shutdown|shutdown_now V
K ask V
K loop K every V
K endloop
K halt"""
LIMITS = {"V": 2**64, "K": 2**32, "W": 256}


def fits(word, wanted):
    """Whether a word of a line is what a form wants there."""
    if wanted in LIMITS:
        return re.fullmatch("0|[1-9][0-9]{0,19}", word) is not None and int(word) < LIMITS[wanted]
    return word in wanted.split("|")


def has_form(line, forms):
    """Whether a line, its newline with it, has one of these forms."""
    words = line.decode("latin-1")[:-1].split(" ")
    return line.endswith(b"\n") and any(
        len(words) == len(form) and all(map(fits, words, form)) for form in (text.split(" ") for text in forms.splitlines())
    )


def is_answer(line):
    return has_form(line, ANSWER_FORMS)


def is_end(line):
    return has_form(line, END_FORMS)


def is_trace_line(line):
    return is_answer(line) or is_end(line) or has_form(line, CALL_FORMS)


def lines_of(text):
    """The lines of a text, each with its newline, the last one maybe without."""
    return re.findall(rb"[^\n]*\n|[^\n]+", text)


def end_of_events(events, limit):
    """How many events are answered, and the line on standard error that comes then."""
    for count, line in enumerate(lines_of(events)):
        if len(line) > LONGEST_EVENT + 1 or not has_form(line, EVENT_FORMS):
            return count, b"sched: event line %d\n" % (count + 1)
        if count == limit:
            return count, b"sched: full\nsched: at most %d events are taken; --limit N takes N\n" % limit
    return len(lines_of(events)), b""
