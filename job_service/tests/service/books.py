"""The book follows from records and answers alone: whole, in two parts, and where a note's line was never taken."""

import copy

from house import Checks
from sched_jobs.basics import Fault
from sched_jobs.store.book import Book
from sched_jobs.store.entries import Entry

TRUE = {"command": ["true"]}


def put(after: int, name: str, **keys: object) -> dict:
    return {"after": after, "put": Entry(name, TRUE | keys, 0, due=0, aimed=0).as_json()}


# What was asked, and what was answered, line by line, of two jobs: one that runs once, and one that is cancelled while it runs.
RECORDS = [
    put(0, "once"), {"line": 2, "job": "once", "version": 0}, put(2, "beat", every="1s"), {"line": 3, "job": "beat", "version": 0},
    {"line": 6, "code": 0, "why": "ran", "attempts": 2}, {"line": 8, "code": 4, "why": "ran", "attempts": 1},
    {"after": 9, "set": "beat", "state": "cancelled"}, {"line": 11, "code": 7, "why": "lost", "attempts": 1},
]
ANSWERS = [[line] for line in (
    "10 clock", "11 submit 0 schedule due 11", "11 submit 1 rate due 11", "11 start 0 task 0 run 0 due 11",
    "11 start 1 task 1 run 0 due 11",
    "20 finish 0 task 0 run 0 done 0", "20 start 0 idle", "30 finish 1 task 1 run 0 again due 1011",
    "1011 start 1 task 1 run 1 due 1011",
    "1011 outside 1 yes", "1020 finish 1 task 1 run 1 dropped")]


def whole() -> tuple[Book, list]:
    ended = []
    book = Book(ended.append)
    book.replay(RECORDS, ANSWERS)
    return book, ended


def told(_: str) -> Checks:
    book, ended = whole()
    once, beat = book.entries["once"], book.entries["beat"]
    yield "one is done", (once.over, once.runs, once.failed, once.last["attempts"]) == ("done", 1, 0, 2)
    yield "one is cancelled once its run has ended", (beat.over, beat.runs, beat.failed) == ("cancelled", 2, 2)
    yield "each end is told", [(one.run.name, one.code, one.is_failed, one.why) for one in ended] == [
        ("once", 0, False, "ran"), ("beat", 4, True, "ran"), ("beat", 7, True, "lost")]
    yield "nothing is left", not book.running and not book.tasks and not book.notes and book.lines == len(ANSWERS)


def stands_behind(record: dict) -> int:
    """How many lines had been answered as it was kept."""
    return record["after"] if "after" in record else record["line"] - 1


def in_two_parts(_: str) -> Checks:
    """Whatever the line at which a segment begins, the book behind it is the same."""
    wanted = whole()[0].as_json()
    for cut in range(len(ANSWERS) + 1):
        first = Book()
        first.replay([record for record in RECORDS if stands_behind(record) < cut], copy.deepcopy(ANSWERS[:cut]))
        second = Book.of_json(copy.deepcopy(first.as_json()))
        second.replay([record for record in RECORDS if stands_behind(record) >= cut], copy.deepcopy(ANSWERS[cut:]))
        yield f"cut behind line {cut}", second.as_json() == wanted


def without_a_line(_: str) -> Checks:
    """A job whose line was never taken is there, and has no task."""
    book = Book()
    book.replay([put(1, "a"), {"line": 3, "job": "a", "version": 0}], ANSWERS[:1])
    yield "it is there", book.entries["a"].task is None and book.entries["a"].is_open
    yield "its note is known by its line", list(book.notes) == [3]


def faults(_: str) -> Checks:
    for what, records, answers in [
        ("a submission without a note", [], [["5 submit 0 schedule due 5"]]), ("an error", [], [["5 error busy"]]),
        ("records ahead of the journal", [put(3, "a")], [["5 clock"]]), ("a refusal", [], [["5 refuse 0 rejected"]]),
    ]:
        try:
            Book().replay(records, answers)
            yield what, False
        except Fault:
            yield what, True
    try:
        Book.of_json({"version": 99})
        yield "another version", False
    except Fault as fault:
        yield "another version", "version 99" in str(fault)


TESTS = [told, in_two_parts, without_a_line, faults]
