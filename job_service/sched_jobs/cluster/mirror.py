"""Some keys as they stand, and then what becomes of them, with no change left out."""

from collections.abc import Callable

from sched_jobs.basics import Json
from sched_jobs.cluster.etcd import Found, Gateway, Pair, Watch, found_in, pair_of, revision_of, transaction

SECONDS_BETWEEN = 0.1


class Mirror:
    """Keys that begin alike. `begun` takes what `ranges` have found, all at one revision, and says whether that is all: if not, they
    are asked again, and if it answers none, it is begun anew by whoever does. Then `changed` takes what becomes of them since.
    Whatever breaks it, it begins anew."""

    def __init__(self, gateway: Gateway, prefix: str, ranges: Callable[[], list[Json]], begun: Callable[[list[Found]], bool | None],
                 changed: Callable[[Pair], None]) -> None:
        self.gateway, self.prefix, self.ranges, self.begun, self.changed = gateway, prefix, ranges, begun, changed
        self.watch: Watch | None = None
        self.turn = 0

    @property
    def is_current(self) -> bool:
        """Whether it has begun, and nothing has broken it."""
        return self.watch is not None

    def begin(self) -> None:
        self.close()
        turn = self.turn

        def take(answer: Json) -> None:
            if turn != self.turn:
                return
            if "error" in answer:
                again(answer["error"])
                return
            is_all = self.begun([found_in(response) for response in answer.get("responses", [])])
            if turn != self.turn or is_all is None:
                return
            if is_all:
                self.watch = self.gateway.watch(self.prefix, revision_of(answer) + 1, self.hear, again)
            else:
                self.begin()

        def again(_: str) -> None:
            if turn == self.turn:
                self.close()
                turned = self.turn
                self.gateway.loop.later(SECONDS_BETWEEN, lambda: self.begin() if turned == self.turn else None)

        self.gateway.call("kv/txn", transaction([], self.ranges()), take, again)

    def hear(self, told: Json) -> None:
        result, turn = told.get("result", {"canceled": True}), self.turn
        if result.get("canceled"):
            self.begin()
        for event in result.get("events", []):
            if turn == self.turn:
                self.changed(pair_of(event["kv"], event.get("type") == "DELETE"))

    def close(self) -> None:
        self.turn += 1
        if self.watch is not None:
            self.watch.close()
            self.watch = None
