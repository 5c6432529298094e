"""What a node says to the leader of a log where another one leads: under keys, one at a time, so that each is heard once and in order.

A mail that was put may be asked for again, since its answer may be lost. Once it was heard its key is gone, and the log says so by
its place: one that is put behind that is not heard again.
"""

import json
import zlib
from collections.abc import Callable

from sched_jobs.basics import Fault, Json
from sched_jobs.cluster.etcd import Gateway, is_absent, put, transaction
from sched_jobs.cluster.keys import mail_key
from sched_jobs.cluster.words import Word, as_json, of_json

SECONDS_BETWEEN = 0.1
MOST_WORDS = 64


def sealed(words: list[Word]) -> bytes:
    return zlib.compress(json.dumps([as_json(word) for word in words], separators=(",", ":")).encode())


def opened_mail(value: bytes) -> list[Word]:
    try:
        return [of_json(word) for word in json.loads(zlib.decompress(value))]
    except (ValueError, TypeError, KeyError, zlib.error) as error:
        raise Fault(f"this is no mail of a node: {value[:40]!r}") from error


class Mailbox:
    """The mails of this node on one log. `epoch` gives the revision at which the node joined, and none where it has not."""

    def __init__(self, gateway: Gateway, log: int, node: str, epoch: Callable[[], int]) -> None:
        self.gateway, self.log, self.node, self.epoch = gateway, log, node, epoch
        self.count, self.place, self.value = 0, "", b""

    @property
    def is_free(self) -> bool:
        return not self.place and self.epoch() != 0

    def send(self, words: list[Word]) -> list[Word]:
        """Sends the first of these, and gives back the rest."""
        self.count += 1
        self.place, self.value = f"{self.epoch():016}-{self.count:08}", sealed(words[:MOST_WORDS])
        self.put(self.place)
        return words[MOST_WORDS:]

    def put(self, place: str) -> None:
        if place != self.place:
            return
        key = mail_key(self.log, self.node, place)

        def done(_: Json) -> None:
            self.hear(place)

        self.gateway.call("kv/txn", transaction([is_absent(key)], [put(key, self.value)]), done,
                          lambda _: self.again(place))

    def again(self, place: str) -> None:
        self.gateway.loop.later(SECONDS_BETWEEN, lambda: self.put(place))

    def hear(self, place: str) -> None:
        """All up to this place has come."""
        if self.place and self.place <= place:
            self.place, self.value = "", b""
