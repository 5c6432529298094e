"""Snapshots of a log in etcd: what they are made of, how one is put, and how one is fetched. With each the groups before it go."""

import json
from collections.abc import Callable, Iterator
from dataclasses import dataclass
from zlib import crc32

from sched_jobs.basics import Json
from sched_jobs.cluster.etcd import Gateway, delete, found_in, get, put, revision_of, transaction, was_made_at
from sched_jobs.cluster.keys import group_key, groups_prefix, leader_key, part_key, parts_prefix, snapshot_key

PART = 400_000
# So many groups a snapshot is behind the one before, and so many before it are kept for nodes that are a little behind.
GROUPS_BETWEEN, GROUPS_KEPT = 1_000, 200


@dataclass(frozen=True)
class Snapshot:
    """Up to which group it goes, and its parts."""

    group: int
    parts: int
    sum: int


def snapshot_of(value: bytes) -> Snapshot:
    return Snapshot(**json.loads(value))


def parts_of(content: bytes) -> Iterator[bytes]:
    for at in range(0, len(content), PART):
        yield content[at:at + PART]


class Putting:
    """A snapshot that is put: part by part, and then its name, with the leader's fence. At the first fault it is given up."""

    def __init__(self, gateway: Gateway, log: int, leader: int, group: int, content: bytes, ended: Callable[[], None]) -> None:
        self.gateway, self.log, self.leader, self.ended = gateway, log, leader, ended
        self.snapshot = Snapshot(group, len(list(parts_of(content))), crc32(content))
        self.parts = enumerate(parts_of(content))
        self.put_next()

    def put_next(self) -> None:
        part = next(self.parts, None)
        if part is None:
            self.put_name()
            return
        key = part_key(self.log, self.snapshot.group, part[0])
        self.ask([put(key, part[1])], lambda _: self.put_next())

    def put_name(self) -> None:
        """From now on the log begins with it."""
        name = json.dumps(vars(self.snapshot)).encode()
        last = max(1, self.snapshot.group - GROUPS_KEPT)
        self.ask([put(snapshot_key(self.log), name), delete(groups_prefix(self.log), group_key(self.log, last)),
                  delete(parts_prefix(self.log), part_key(self.log, self.snapshot.group, 0))], self.compact)

    def ask(self, success: list[Json], then: Callable[[Json], None]) -> None:
        compare = [was_made_at(leader_key(self.log), self.leader)]

        def answered(answer: Json) -> None:
            if answer.get("succeeded"):
                then(answer)
            else:
                self.ended()

        self.gateway.call("kv/txn", transaction(compare, success), answered, lambda _: self.ended())

    def compact(self, answer: Json) -> None:
        """What etcd keeps of keys as they were goes too."""
        request = {"revision": str(revision_of(answer) - 1)}
        self.gateway.call("kv/compaction", request, lambda _: self.ended(), lambda _: self.ended())


class Fetching:
    """A snapshot that is fetched. `failed` is called where a part is not there any more, or nobody answers."""

    def __init__(self, gateway: Gateway, log: int, snapshot: Snapshot, then: Callable[[bytes], None], failed: Callable[[], None]) -> None:
        self.gateway, self.log, self.snapshot, self.then, self.failed = gateway, log, snapshot, then, failed
        self.content = b""
        self.fetch(0)

    def fetch(self, part: int) -> None:
        if part == self.snapshot.parts:
            if crc32(self.content) == self.snapshot.sum:
                self.then(self.content)
            else:
                self.failed()
            return

        def found(answer: Json) -> None:
            pairs = found_in(answer).pairs
            if pairs:
                self.content += pairs[0].value or b""
                self.fetch(part + 1)
            else:
                self.failed()

        key = part_key(self.log, self.snapshot.group, part)
        self.gateway.call("kv/range", get(key)["request_range"], found, lambda _: self.failed())
