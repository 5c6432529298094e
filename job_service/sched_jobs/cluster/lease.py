"""The lease of a node: it is kept as long as etcd answers, and with it end the keys that hang on it."""

import time
from collections.abc import Callable

from sched_jobs.basics import Json
from sched_jobs.cluster.etcd import Gateway
from sched_jobs.service.loop import Timer

KEEPS_WITHIN = 3
SECONDS_BETWEEN = 0.1


def steady() -> float:
    """Seconds by a clock that nobody sets, and that goes on while the machine or the process sleeps."""
    return time.clock_gettime(time.CLOCK_BOOTTIME)


class Lease:
    """A lease of so many seconds. `begun` is called once there is one, and `lost` once it has ended."""

    def __init__(self, gateway: Gateway, seconds: int, begun: Callable[[], None], lost: Callable[[], None]) -> None:
        self.gateway, self.seconds, self.begun, self.lost = gateway, seconds, begun, lost
        self.number, self.sure_until, self.is_left = 0, 0.0, False
        self.timer = Timer(lambda: None)

    def is_sure(self) -> bool:
        """Whether nobody can have been told that it has ended."""
        return self.number != 0 and steady() < self.sure_until

    def begin(self) -> None:
        asked = steady()

        def granted(answer: Json) -> None:
            if "ID" not in answer:
                self.again(self.begin)
                return
            self.number, self.sure_until = int(answer["ID"]), asked + self.seconds
            self.keep_later(self.seconds / KEEPS_WITHIN)
            self.begun()

        self.gateway.call("lease/grant", {"TTL": str(self.seconds)}, granted, lambda _: self.again(self.begin))

    def again(self, call: Callable[[], None]) -> None:
        if not self.is_left:
            self.timer = self.gateway.loop.later(SECONDS_BETWEEN, call)

    def keep_later(self, seconds: float) -> None:
        if not self.is_left:
            self.timer = self.gateway.loop.later(seconds, self.keep)

    def keep(self) -> None:
        asked, number = steady(), self.number

        def kept(answer: Json) -> None:
            if self.is_left:
                return
            if int(answer.get("result", {}).get("TTL", 0)) > 0:
                self.sure_until = asked + self.seconds
                self.keep_later(self.seconds / KEEPS_WITHIN)
            else:
                self.number = 0
                self.lost()
                self.begin()

        self.gateway.call("lease/keepalive", {"ID": str(number)}, kept, lambda _: self.again(self.keep))

    def leave(self, then: Callable[[], None]) -> None:
        """Ends it at once."""
        self.is_left = True
        self.timer.cancel()
        number, self.number = self.number, 0
        self.gateway.call("lease/revoke", {"ID": str(number)}, lambda _: then(), lambda _: then())
