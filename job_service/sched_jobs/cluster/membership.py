"""Which nodes there are: each has a key that hangs on its lease, and says how many jobs it runs at a time."""

import json
import os
from collections.abc import Callable
from dataclasses import dataclass
from pathlib import Path

from sched_jobs.basics import Fault, Json
from sched_jobs.cluster.etcd import Found, Gateway, Pair, end_of, found_in, get, is_absent, put, revision_of, transaction, was_put_at
from sched_jobs.cluster.keys import NODES, node_key
from sched_jobs.cluster.lease import Lease
from sched_jobs.cluster.mirror import Mirror
from sched_jobs.store.files import content_of, replace

IDENTITY_BYTES = 16


@dataclass(frozen=True)
class Member:
    """A node that serves. Where it leaves, it takes no run any more."""

    name: str
    workers: int
    identity: str


def identity_of(folder: Path) -> tuple[str, bool]:
    """What makes this folder's node known again, and whether it is new."""
    path = folder / "identity"
    found = content_of(path).decode().strip()
    if found:
        return found, False
    made = os.urandom(IDENTITY_BYTES).hex()
    replace(path, made.encode() + b"\n")
    return made, True


def member_of(pair: Pair) -> Member:
    told = json.loads(pair.value or b"{}")
    return Member(pair.key.removeprefix(NODES), told.get("workers", 0), told.get("identity", ""))


class Membership:
    """This node among the others. `joined` is called whenever it is one of them, and `changed` where there are others than before.
    `epoch` is the revision at which it joined."""

    def __init__(self, gateway: Gateway, member: Member, seconds: int, joined: Callable[[], None], lost: Callable[[], None],
                 changed: Callable[[], None], refused: Callable[[Fault], None]) -> None:
        self.gateway, self.me, self.joined, self.changed, self.refused = gateway, member, joined, changed, refused
        self.lease = Lease(gateway, seconds, self.join, lost)
        self.epoch, self.waited = 0, 0.0
        self.members: dict[str, Member] = {}
        self.mirror = Mirror(gateway, NODES, lambda: [get(NODES, end_of(NODES))], self.take_all, self.take)

    @property
    def is_current(self) -> bool:
        """Whether it is known which nodes there are, and this one is among them."""
        return self.mirror.is_current and self.me.name in self.members

    def begin(self) -> None:
        self.lease.begin()
        self.mirror.begin()

    def value(self) -> bytes:
        return json.dumps({"workers": self.me.workers, "identity": self.me.identity}).encode()

    # ---- this node

    def join(self) -> None:
        """Makes the node's key, or has the one of a service before this one hang on this lease."""
        self.ask([is_absent(node_key(self.me.name))], 0)

    def ask(self, compare: list[Json], before: int) -> None:
        key, lease = node_key(self.me.name), self.lease.number

        def answered(answer: Json) -> None:
            if lease != self.lease.number:
                return
            if answer.get("succeeded"):
                self.epoch = revision_of(answer)
                if before not in (0, lease):
                    self.gateway.call("lease/revoke", {"ID": str(before)}, lambda _: None, lambda _: None)
                self.joined()
            elif "responses" in answer:
                self.meet(found_in(answer["responses"][0]).pairs)

        request = transaction(compare, [put(key, self.value(), lease)], [get(key)])
        self.gateway.call("kv/txn", request, answered, lambda _: self.later(lambda: self.ask(compare, before)))

    def meet(self, pairs: list[Pair]) -> None:
        """The key is there: of this node before, or of another one of its name."""
        if not pairs:
            self.join()
        elif member_of(pairs[0]).identity == self.me.identity:
            self.ask([was_put_at(pairs[0].key, pairs[0].put)], pairs[0].lease)
        elif self.waited < 2 * self.lease.seconds:
            self.waited += 1
            self.gateway.loop.later(1, self.join)
        else:
            self.refused(Fault(f"cluster: another node serves that is named {self.me.name}"))

    def later(self, call: Callable[[], None]) -> None:
        lease = self.lease.number
        self.gateway.loop.later(0.1, lambda: call() if lease == self.lease.number else None)

    def set_workers(self, workers: int) -> None:
        """Takes so many jobs at a time from now on."""
        self.me = Member(self.me.name, workers, self.me.identity)
        if self.lease.number:
            self.join()

    # ---- all nodes

    def take_all(self, found: list[Found]) -> bool:
        self.members = {member.name: member for member in map(member_of, found[0].pairs)}
        self.changed()
        return True

    def take(self, pair: Pair) -> None:
        member = member_of(pair)
        if pair.value is None:
            self.members.pop(member.name, None)
        else:
            self.members[member.name] = member
        self.changed()
