"""One log at one node: it follows the log, tells it what has happened here, and leads it where it is this node's turn."""

from collections.abc import Callable
from pathlib import Path
from typing import Protocol

from sched_jobs.basics import Json, tell
from sched_jobs.cluster.etcd import Found, Gateway, Pair, delete, end_of, get, is_absent, put, transaction, was_made_at
from sched_jobs.cluster.groups import Group, decoded
from sched_jobs.cluster.keys import group_key, groups_prefix, leader_key, log_prefix, mails_prefix, number_of, snapshot_key
from sched_jobs.cluster.leading import Leading
from sched_jobs.cluster.mailbox import Mailbox
from sched_jobs.cluster.membership import Member, Membership
from sched_jobs.cluster.mirror import Mirror
from sched_jobs.cluster.node_runs import NodeRuns
from sched_jobs.cluster.replica import clear, replica_in
from sched_jobs.cluster.snapshots import GROUPS_BETWEEN, Fetching, Putting, Snapshot, snapshot_of
from sched_jobs.cluster.words import Ask, End, Word
from sched_jobs.service.marks import Marks
from sched_jobs.store.files import Unfit

GROUPS_AT_ONCE = 16
# A node whose turn it is not waits so long before it leads.
SECONDS_TO_WAIT = 1.0
SECONDS_BETWEEN = 0.1
Reply = Callable[[object], None]


class House(Protocol):
    """The node."""

    name: str
    program: str
    gateway: Gateway
    membership: Membership
    was_rebooted: bool

    @property
    def is_leaving(self) -> bool: ...
    def attach(self, log: "Log") -> None: ...
    def detach(self, log: "Log") -> None: ...


class Log:
    """The log of a number. `words` are what this node has to say, and `waiting` who waits for an answer."""

    def __init__(self, house: House, number: int, folder: Path, marks: Marks) -> None:
        self.house, self.number, self.folder, self.gateway = house, number, folder, house.gateway
        self.replica = replica_in(folder, house.program)
        self.runs = NodeRuns(house.name, self.replica.book, marks, house.gateway.loop, self.words_of_end)
        self.mailbox = Mailbox(self.gateway, number, house.name, lambda: house.membership.epoch)
        self.mirror = Mirror(self.gateway, log_prefix(number), self.ranges, self.begun, self.changed)
        self.words: list[Word] = []
        self.mails: dict[str, Pair] = {}
        self.waiting: dict[str, Reply] = {}
        self.leader: Pair | None = None
        self.snapshot: Snapshot | None = None
        self.leading: Leading | None = None
        self.fetching: Fetching | None = None
        self.putting: Putting | None = None
        house.attach(self)

    # ---- what this node has to say

    def words_of_end(self, end: End) -> None:
        self.words.append(end)

    def ask(self, name: str, asked: Json, reply: Reply) -> None:
        """Asks something of a job. The answer comes with the group that has it."""
        self.waiting[name] = reply
        self.words.append(Ask(name, asked))

    def take_back(self, name: str) -> bool:
        """Waits for an answer no more. Whether nobody was asked yet."""
        del self.waiting[name]
        kept = [word for word in self.words if not (isinstance(word, Ask) and word.name == name)]
        is_unasked = len(kept) < len(self.words) and (self.leading is None or self.leading.draft is None)
        if is_unasked:
            self.words = kept
        return is_unasked

    def step(self) -> None:
        """Does what there is to do: as the leader, or by a mail to the leader."""
        if not self.mirror.is_current:
            return
        if self.leading is not None:
            if self.house.membership.is_current:
                self.leading.pump()
        elif self.leader is not None and self.words and self.mailbox.is_free and not self.is_ours(self.leader):
            self.words = self.mailbox.send(self.words)
        self.begin_runs()

    def begin_runs(self) -> None:
        """Begins what the log gives to this node, where nobody can have been told that the node is gone."""
        if self.runs.has_begun:
            self.runs.settle(self.house.membership.lease.is_sure())
        elif self.house.membership.lease.is_sure():
            self.runs.begin(self.house.was_rebooted)

    def is_told(self) -> bool:
        """Whether the log knows all that this node has to say."""
        return not (self.words or self.runs.untold or self.mailbox.place or self.leading and self.leading.draft)

    # ---- the log, as it stands and as it grows

    def ranges(self) -> list[Json]:
        first = group_key(self.number, self.replica.book.group + 1)
        return [get(leader_key(self.number)), get(snapshot_key(self.number)),
                get(first, end_of(groups_prefix(self.number)), GROUPS_AT_ONCE),
                get(mails_prefix(self.number), end_of(mails_prefix(self.number)))]

    def begun(self, found: list[Found]) -> bool | None:
        """Takes the log as it stands. What is not there any more is in the snapshot."""
        leader, snapshot, groups, mails = found
        self.leader = leader.pairs[0] if leader.pairs else None
        self.snapshot = snapshot_of(snapshot.pairs[0].value or b"") if snapshot.pairs else None
        following = self.replica.book.group + 1
        if self.snapshot is not None and self.snapshot.group >= following and not (
                groups.pairs and number_of(groups.pairs[0].key) == following):
            self.fetch(self.snapshot)
            return None
        for pair in groups.pairs:
            self.take(pair)
        if groups.is_more:
            return False
        self.mails = {pair.key: pair for pair in mails.pairs}
        self.gateway.loop.later(0, self.see_leader)
        return True

    def changed(self, pair: Pair) -> None:
        """Takes what becomes of a key."""
        if pair.key == leader_key(self.number):
            self.leader = None if pair.value is None else pair
            self.see_leader()
        elif pair.key.startswith(groups_prefix(self.number)):
            if pair.value is not None:
                self.take(pair)
        elif pair.key == snapshot_key(self.number):
            self.snapshot = snapshot_of(pair.value) if pair.value else None
        elif pair.key.startswith(mails_prefix(self.number)):
            if pair.value is None:
                self.mails.pop(pair.key, None)
            else:
                self.mails[pair.key] = pair

    def take(self, pair: Pair) -> None:
        """Takes a group, where it is the next one."""
        number, book = number_of(pair.key), self.replica.book
        if number <= book.group:
            return
        draft = self.leading.draft if self.leading is not None else None
        if number > book.group + 1:
            self.mirror.begin()
        elif self.leading is not None and draft is not None and pair.value == draft.value:
            self.leading.confirm(pair.made)
        elif self.leading is not None:
            self.step_down("another one has written")
        else:
            self.append(decoded(pair.value or b""), pair.made, False)

    def append(self, group: Group, revision: int, is_recorded: bool = True) -> None:
        """Takes a group of the log, and does what follows for this node."""
        self.replica.take(group, revision, is_recorded)
        if (place := group.heard.get(self.house.name)) is not None:
            self.mailbox.hear(place)
        self.words = [word for word in self.words if not (isinstance(word, Ask) and word.name in group.replies)]
        for name, told in group.replies.items():
            if (reply := self.waiting.pop(name, None)) is not None:
                reply(told)
        if self.runs.has_begun:
            self.runs.settle(False)
            self.runs.end_named(group.ends)

    # ---- who leads

    def value(self) -> str:
        return f"{self.house.name} {self.house.membership.lease.number}"

    def is_ours(self, leader: Pair) -> bool:
        return leader.value == self.value().encode() and self.house.membership.lease.number != 0

    def leader_name(self) -> str | None:
        return None if self.leader is None else (self.leader.value or b"").decode().split(" ")[0]

    def see_leader(self) -> None:
        """Leads, or does not any more, or tries to where nobody does."""
        leader = self.leader
        if leader is not None and self.is_ours(leader):
            if self.leading is None and self.mirror.is_current:
                self.lead(leader.made)
        elif self.leading is not None:
            self.step_down("its lease has ended" if leader is None else "another one leads")
        elif leader is None:
            self.gateway.loop.later(0 if self.preferred() == self.house.name else SECONDS_TO_WAIT, self.campaign)

    def preferred(self) -> str | None:
        """Whose turn it is to lead this log: so leaders of several logs spread over the nodes."""
        names = sorted(member.name for member in self.house.membership.members.values() if member.workers)
        return names[self.number % len(names)] if names else None

    def campaign(self) -> None:
        """Makes the leader's key, where none is there. Whose it is then, the watch tells."""
        lease = self.house.membership.lease
        if self.leader is None and self.mirror.is_current and lease.is_sure() and not self.house.is_leaving:
            key = leader_key(self.number)
            request = transaction([is_absent(key)], [put(key, self.value().encode(), lease.number)])
            self.gateway.call("kv/txn", request, lambda _: None, lambda _: self.later(self.campaign))

    def later(self, call: Callable[[], None]) -> None:
        self.gateway.loop.later(SECONDS_BETWEEN, call)

    def lead(self, made: int) -> None:
        """Leads from now on. The log is whole here, and nobody else can write it any more."""
        self.leading = Leading(self, self.replica.book, made)
        self.replica.clocks = self.leading.clocks
        tell(f"sched-jobs: log {self.number}: {self.house.name} leads, from group {self.replica.book.group} on")

    def step_down(self, why: str) -> None:
        """Leads no more. What was not appended is let go, and said anew."""
        leading, self.leading = self.leading, None
        if leading is None:
            return
        tell(f"sched-jobs: log {self.number}: {self.house.name} leads no more: {why}")
        if leading.draft is not None:
            self.house.detach(self)
            self.replica.close()
            self.replica = replica_in(self.folder, self.house.program)
            self.runs.book = self.replica.book
            self.house.attach(self)
        self.mirror.begin()

    def give_way(self) -> None:
        """Has the node lead whose turn it is."""
        if self.leading is not None and self.leading.draft is None and self.preferred() not in (None, self.house.name):
            key = leader_key(self.number)
            self.gateway.call("kv/txn", transaction([was_made_at(key, self.leading.made)], [delete(key)]), lambda _: None, lambda _: None)

    def members(self) -> dict[str, Member]:
        return self.house.membership.members

    # ---- snapshots

    def put_snapshot(self) -> None:
        """Puts one where the log has grown by so much since the last one."""
        book, last = self.replica.book, 0 if self.snapshot is None else self.snapshot.group
        if self.leading is None or self.leading.draft is not None or self.putting is not None or book.group < last + GROUPS_BETWEEN:
            return
        self.putting = Putting(self.gateway, self.number, self.leading.made, book.group, self.replica.snapshot(), self.end_putting)

    def end_putting(self) -> None:
        self.putting = None

    def fetch(self, snapshot: Snapshot) -> None:
        tell(f"sched-jobs: log {self.number}: from group {self.replica.book.group} to the snapshot at {snapshot.group}")

        def install(content: bytes) -> None:
            self.house.detach(self)
            try:
                self.replica.install(content)
            except Unfit as why:
                tell(f"sched-jobs: {self.folder}: {why}: it is read anew from the log")
                clear(self.folder)
                self.replica = replica_in(self.folder, self.house.program)
            self.runs.book = self.replica.book
            self.house.attach(self)
            again()

        def again() -> None:
            self.fetching = None
            self.mirror.begin()

        self.fetching = Fetching(self.gateway, self.number, snapshot, install, lambda: self.later(again))

    def close(self) -> None:
        self.mirror.close()
        self.house.detach(self)
        self.replica.store.close()
        self.replica.engine.close()
