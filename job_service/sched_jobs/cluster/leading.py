"""What the leader of a log decides: the next group, of all that has come. One is under way at a time, and what comes meanwhile shares
the next one.

A transaction appends it: its key is not there, the one before it is, and the leader's key is still the one that this leader made. So
a leader that was away writes nothing, and a group whose answer was lost may be asked for again, by the same bytes.
"""

import time
from collections import Counter
from dataclasses import dataclass, field
from pathlib import Path
from typing import Protocol

from sched_jobs.basics import Fault, Json, tell
from sched_jobs.cluster.etcd import Gateway, Pair, delete, found_in, get, is_absent, is_there, put, revision_of, transaction, was_made_at
from sched_jobs.cluster.groups import MOST_BYTES, Group
from sched_jobs.cluster.keys import group_key, leader_key, mail_of
from sched_jobs.cluster.mailbox import opened_mail
from sched_jobs.cluster.membership import Member
from sched_jobs.cluster.replica import WORKERS
from sched_jobs.cluster.words import Ask, End, Word
from sched_jobs.service.clocks import Clocks
from sched_jobs.service.decisions import still_wanted, take_back, wish
from sched_jobs.service.due import Due
from sched_jobs.service.marks import LOST
from sched_jobs.service.requests import CHANGES, Refused
from sched_jobs.service.runs import told_end
from sched_jobs.service.turns import Turn
from sched_jobs.store.book import Book
from sched_jobs.store.entries import Running

SECONDS_BETWEEN = 0.05
MOST_MAILS, MOST_WORDS, MOST_WISHES = 40, 400, 500
TOO_MUCH = "it is too much at once for a cluster"


class House(Protocol):
    """The log that is led."""

    number: int
    folder: Path
    gateway: Gateway
    words: list[Word]
    mails: dict[str, Pair]

    def members(self) -> dict[str, Member]: ...
    def append(self, group: Group, revision: int, is_recorded: bool = True) -> None: ...
    def step_down(self, why: str) -> None: ...


@dataclass
class Draft:
    """A group that is made: what becomes of the book, and of whom it is."""

    turn: Turn
    words: list[Word]
    names: set[str] = field(default_factory=set)
    mails: list[str] = field(default_factory=list)
    ended: set[int] = field(default_factory=set)
    heard: dict[str, str] = field(default_factory=dict)
    replies: dict[str, Json] = field(default_factory=dict)
    ends: list[str] = field(default_factory=list)
    group: Group | None = None
    value: bytes = b""

    def is_something(self) -> bool:
        """Whether the log has to have it."""
        return bool(self.turn.lines or self.turn.records or self.mails or self.replies or self.ends)


class Leading:
    """The leader of a log, from the revision on at which it made its key."""

    def __init__(self, house: House, book: Book, made: int) -> None:
        self.house, self.book, self.made, self.folder = house, book, made, house.folder
        self.clocks, self.due, self.is_anew = Clocks(book.moment), Due(book), True
        self.draft: Draft | None = None
        self.since = time.monotonic()
        book.dirty = set(book.entries)
        for entry in book.entries.values():
            self.due.note(entry)

    # ---- whether there is anything to decide

    def is_something(self) -> bool:
        return bool(self.is_anew or self.house.words or self.house.mails or self.book.dirty or any(self.gone()) or
                    self.places(self.clocks.now(), set()))

    def gone(self) -> list[tuple[Running, str | None]]:
        """The runs of nodes that are gone, each with the node that makes another attempt, or with none where it has ended so. What is to
        be tried again waits for a node that has a worker."""
        members = self.house.members()
        runs = [run for run in self.book.running.values() if run.node not in members]
        rooms = self.rooms(set()) if runs else Counter()
        found: list[tuple[Running, str | None]] = []
        for run in runs:
            entry = self.book.entries[run.name]
            if entry.order.on_crash != "retry" or entry.is_given_up:
                found.append((run, None))
            elif (node := roomiest(rooms)) is not None:
                rooms[node] -= 1
                found.append((run, node))
        return found

    def rooms(self, ended: set[int]) -> Counter[str]:
        """How many runs more each node takes."""
        rooms = Counter({member.name: member.workers for member in self.house.members().values()})
        rooms.subtract(run.node for worker, run in self.book.running.items() if worker not in ended and run.node in rooms)
        return rooms

    def places(self, now: int, ended: set[int], rooms: Counter[str] | None = None) -> list[tuple[int, str]]:
        """Where runs begin: a worker and a node for each that is due, as far as there are any."""
        rooms = self.rooms(ended) if rooms is None else rooms
        workers = [worker for worker in range(WORKERS) if worker not in self.book.running or worker in ended]
        most = min(len(workers), sum(max(0, room) for room in rooms.values()))
        found = []
        for worker in workers[:self.due.count(now, most) if most else 0]:
            node = roomiest(rooms)
            assert node is not None
            rooms[node] -= 1
            found.append((worker, node))
        return found

    def moments(self) -> list[int]:
        """When there is something to do, where nothing comes, by this leader's moments."""
        due = self.due.next()
        has_room = any(room > 0 for room in self.rooms(set()).values()) and len(self.book.running) < WORKERS
        return [due] if due is not None and has_room else []

    # ---- the next group

    def pump(self) -> None:
        """Makes a group of all that has come, and has it appended."""
        if self.draft is not None:
            return
        self.is_anew |= self.clocks.was_set()
        if not self.is_something():
            return
        draft = self.drafted()
        if draft.is_something():
            self.draft = draft
            self.send(draft)
        else:
            self.is_anew = False
            del self.house.words[:len(draft.words)]

    def drafted(self) -> Draft:
        """The next group. Where it is too much, of one word alone."""
        draft = self.made_of(self.house.words[:MOST_WORDS], MOST_MAILS, MOST_WISHES)
        if len(draft.value) > MOST_BYTES:
            self.undo(draft)
            draft = self.made_of(self.house.words[:1], 1 - len(self.house.words[:1]), MOST_WISHES // 10)
        if len(draft.value) > MOST_BYTES:
            self.undo(draft)
            draft = self.made_of(draft.words, len(draft.mails), 0, is_refused=True)
        return draft

    def made_of(self, words: list[Word], mails: int, wishes: int, is_refused: bool = False) -> Draft:
        now = max(self.clocks.now(), self.book.moment)
        draft = Draft(Turn(self.book, now), words)
        if self.is_anew:
            take_back(draft.turn, self.book, self.clocks, now)
        for word in [*words, *self.read_mails(draft, mails)]:
            if isinstance(word, End):
                self.end(draft, word)
            elif is_refused:
                draft.replies[word.name] = {"error": TOO_MUCH}
            else:
                self.change(draft, word)
        self.see_to_the_gone(draft)
        draft.names = set(sorted(self.book.dirty)[:wishes])
        self.book.dirty -= draft.names
        wish(draft.turn, self.book, self.clocks, draft.names, now + 1)
        moved = Counter(record["node"] for record in draft.turn.records if "move" in record)
        rooms = self.rooms(draft.ended)
        rooms.subtract(moved)
        for worker, node in self.places(now, draft.ended, rooms):
            draft.turn.say(f"start {worker}", {"node": node})
        turn = draft.turn
        draft.group = Group(self.book.group + 1, self.made, self.book.lines, self.clocks.ahead(), turn.lines, turn.records, draft.heard,
                            draft.replies, draft.ends)
        draft.value = draft.group.encoded()
        return draft

    def undo(self, draft: Draft) -> None:
        draft.turn.undo()
        self.book.dirty |= draft.names

    def read_mails(self, draft: Draft, most: int) -> list[Word]:
        """What the first mails say. One that was heard before says nothing."""
        found: list[Word] = []
        for key in sorted(self.house.mails)[:most]:
            node, place = mail_of(key)
            draft.mails.append(key)
            if place > draft.heard.get(node, self.book.heard.get(node, "")):
                draft.heard[node] = place
                found += opened_mail(self.house.mails[key].value or b"")
        return found

    def end(self, draft: Draft, end: End) -> None:
        """A run has ended, if it is still under way where that was told."""
        run = self.book.running.get(end.worker)
        if run is not None and run.fence == end.fence and end.worker not in draft.ended:
            self.say_end(draft, run, end.code, end.attempts, end.is_lost)

    def say_end(self, draft: Draft, run: Running, code: int, attempts: int, is_lost: bool) -> None:
        draft.ended.add(run.worker)
        draft.turn.say(*told_end(self.book.entries[run.name], run.worker, code, attempts, is_lost))

    def see_to_the_gone(self, draft: Draft) -> None:
        """Tells the runs of nodes that are gone as lost, or gives them to another node."""
        for run, node in self.gone():
            if run.worker in draft.ended:
                continue
            how = "is lost" if node is None else f"is begun anew on {node}"
            tell(f"sched-jobs: {run.name} task {run.task} run {run.number}: {run.node} is gone, and its run {how}")
            if node is None:
                self.say_end(draft, run, LOST, run.attempt, True)
            else:
                draft.turn.records.append({"after": self.book.lines, "move": run.worker, "node": node, "attempt": run.attempt + 1})

    def change(self, draft: Draft, ask: Ask) -> None:
        """What becomes of a request."""
        word = str(ask.asked.get("do"))
        try:
            outcome = CHANGES[word](self, ask.asked)
        except (Refused, Fault) as why:
            draft.replies[ask.name] = {"error": str(why)}
            return
        except Exception as fault:  # nothing has changed yet, and one request is to stop no other
            tell(f"sched-jobs: a request was not understood: {fault!r}")
            draft.replies[ask.name] = {"error": "it was not understood, as the leader has told"}
            return
        for record in outcome.records:
            draft.turn.record(record)
        if outcome.cancel is not None and outcome.cancel[1]:
            draft.ends.append(ask.asked["name"])
        draft.replies[ask.name] = outcome.reply() if word == "reload" else {"name": ask.asked["name"]}

    # ---- the transaction

    def send(self, draft: Draft) -> None:
        """Asks for the group, until it is known whether it was appended."""
        group, log = draft.group, self.house.number
        assert group is not None
        key = group_key(log, group.number)
        compare = [is_absent(key), was_made_at(leader_key(log), self.made)]
        if group.number > 1:
            compare.append(is_there(group_key(log, group.number - 1)))
        success = [put(key, draft.value), *(delete(mail) for mail in draft.mails)]

        def answered(answer: Json) -> None:
            if draft is not self.draft:
                return
            if answer.get("succeeded"):
                self.confirm(revision_of(answer))
                return
            there = found_in(answer["responses"][0]).pairs if answer.get("responses") else []
            if there and there[0].value == draft.value:
                self.confirm(there[0].made)
            else:
                self.house.step_down("another one leads")

        def failed(_: str) -> None:
            self.house.gateway.loop.later(SECONDS_BETWEEN, lambda: self.send(draft) if draft is self.draft else None)

        self.house.gateway.call("kv/txn", transaction(compare, success, [get(key)]), answered, failed)

    def confirm(self, revision: int) -> None:
        """The group stands in the log."""
        draft, self.draft, self.is_anew = self.draft, None, False
        assert draft is not None and draft.group is not None
        del self.house.words[:len(draft.words)]
        for mail in draft.mails:
            self.house.mails.pop(mail, None)
        self.house.append(draft.group, revision)
        changed = self.book.dirty | draft.names
        for name in changed:
            if name in self.book.entries:
                self.due.note(self.book.entries[name])
        left = self.book.dirty
        self.book.dirty = still_wanted(self.book, self.clocks, left)


def roomiest(rooms: Counter[str]) -> str | None:
    """The node that takes most."""
    name, room = max(((name, room) for name, room in sorted(rooms.items())), key=lambda one: one[1], default=("", 0))
    return name if room > 0 else None
