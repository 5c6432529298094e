"""The pieces of a cluster that need no server: answers of HTTP, groups, mails, and where jobs go."""

from house import Checks
from sched_jobs.basics import Fault
from sched_jobs.cluster.etcd import Server, end_of, servers_of
from sched_jobs.cluster.groups import Group, decoded
from sched_jobs.cluster.http import BadAnswer, Reader
from sched_jobs.cluster.keys import group_key, groups_prefix, log_prefix, mail_key, mail_of, number_of
from sched_jobs.cluster.mailbox import opened_mail, sealed
from sched_jobs.cluster.replica import untold
from sched_jobs.cluster.snapshots import PART, parts_of
from sched_jobs.cluster.words import Ask, End
from sched_jobs.store.book import Book

HEAD = b"HTTP/1.1 200 OK\r\nContent-Type: application/json\r\n"
ANSWERS = [
    (HEAD + b"Content-Length: 5\r\n\r\nhello", b"hello", True),
    (HEAD + b"Content-Length: 0\r\nConnection: close\r\n\r\n", b"", False),
    (HEAD + b"Transfer-Encoding: chunked\r\n\r\n3\r\nabc\r\nA;x=y\r\n0123456789\r\n0\r\nField: x\r\n\r\n", b"abc0123456789", True),
]


def answers(_: str) -> Checks:
    """An answer is read alike, wherever it is cut into pieces."""
    for text, body, is_kept in ANSWERS:
        for cut in range(len(text) + 1):
            reader = Reader()
            found = reader.read(text[:cut]) + reader.read(text[cut:])
            yield f"cut at {cut}", (found, reader.is_whole, reader.is_kept) == (body, True, is_kept)
        reader = Reader()
        found = b"".join(reader.read(text[at:at + 1]) for at in range(len(text)))
        yield "byte by byte", (found, reader.is_whole) == (body, True)
        yield "a front is not whole", not any(is_whole(text[:cut]) for cut in range(len(text)))
    for text in (b"no answer\r\n\r\n", HEAD + b"\r\n", HEAD + b"Transfer-Encoding: chunked\r\n\r\nxyz\r\n"):
        try:
            Reader().read(text)
            yield f"{text!r} is refused", False
        except BadAnswer:
            yield f"{text!r} is refused", True


def is_whole(text: bytes) -> bool:
    reader = Reader()
    reader.read(text)
    return reader.is_whole


def written(_: str) -> Checks:
    """What is written is read again, and what is none is a fault."""
    group = Group(7, 12, 40, -3, ["clock 5", "start 0"], [{"line": 42, "node": "a"}], {"b": "1-2"}, {"x": {"name": "j"}}, ["j"])
    yield "a group", decoded(group.encoded()) == group
    words = [End(3, 17, 0, 1, False), Ask("a-1", {"do": "add", "name": "j"})]
    yield "a mail", opened_mail(sealed(words)) == words
    for what, read in (("a group", decoded), ("a mail", opened_mail)):
        for value in (b"", b"x", group.encoded()[:-3]):
            try:
                read(value)
                yield f"{what} of {value!r} is refused", False
            except Fault:
                yield f"{what} that is none is refused", True


def keys(_: str) -> Checks:
    found = [group_key(3, number) for number in (1, 2, 10, 99, 1_000)]
    yield "groups ascend", found == sorted(found) and [number_of(key) for key in found] == [1, 2, 10, 99, 1_000]
    yield "within their log", all(groups_prefix(3) <= key < end_of(groups_prefix(3)) and key.startswith(log_prefix(3)) for key in found)
    yield "a mail tells whose it is", mail_of(mail_key(3, "a:b@c", "12-01")) == ("a:b@c", "12-01")


def addresses(_: str) -> Checks:
    yield "servers", servers_of("http://a:1,http://b") == [Server("a", 1), Server("b", 2379)]
    for text in ("", "a:1", "https://a:1", "http://", "http://a/x", "http://u@a:1", "http://a:1,"):
        try:
            servers_of(text)
            yield f"{text!r} is refused", False
        except ValueError:
            yield f"{text!r} is refused", True


def parts(_: str) -> Checks:
    for size in (0, 1, PART - 1, PART, PART + 1, 3 * PART):
        content = bytes(size % 251 for _ in range(size))
        found = list(parts_of(content))
        yield f"{size} bytes", b"".join(found) == content and all(0 < len(part) <= PART for part in found)


def books(_: str) -> Checks:
    """A book knows the group, whose a run is, and where it moved; what is not told yet is known by the number of lines."""
    head = Group(1, 9, 0, 5, ["clock 10", "call execute", "start 0"], heard={"b": "1-1"}).head(20)
    records = [head, {"after": 0, "put": {"name": "j", "table": {"command": ["x"]}, "added": 0, "due": 0}}, {"line": 2, "job": "j"},
               {"line": 3, "node": "b"}]
    yield "all is untold", untold(records, 0) == head["lines"]
    yield "some is", untold(records, 2) == head["lines"][2:] and untold(records, 3) == []
    book = Book()
    for record in records:
        book.record(record)
    for answer in (["10 clock"], ["11 submit 0 schedule due 11"], ["11 start 0 task 0 run 0 due 11"]):
        book.answer(answer)
    run = book.running[0]
    yield "its node and its fence", (run.node, run.fence, run.attempt, book.group, book.ahead) == ("b", 20, 1, 1, 5)
    other = Book.of_json(book.as_json())
    yield "all of it is written", other.as_json() == book.as_json()
    other.record(Group(2, 9, 3, 0, heard={"c": "2-1"}).head(33))
    other.record({"after": 3, "move": 0, "node": "c", "attempt": 2})
    moved = other.running[0]
    yield "it moved", (moved.node, moved.fence, moved.attempt, other.heard) == ("c", 33, 2, {"b": "1-1", "c": "2-1"})
    yield "and not elsewhere", (book.running[0].node, book.heard) == ("b", {"b": "1-1"})


TESTS = [answers, written, keys, addresses, parts, books]
