"""Requests of an asyncio program that block, and are made by a pool of threads: one that fails is
made again after a pause that grows, and one that takes too long is given up.

No thread is held in a pause, and the loop goes on while a request blocks.
"""

from __future__ import annotations

import asyncio
from collections.abc import Iterator
from dataclasses import dataclass, field

from sched_timers import ScheduledThreadPoolExecutor

FIRST_PAUSE = 0.004
PATIENCE = 30.0


@dataclass
class Server:
    """A server that does not answer at first: for each name, how many requests are in vain."""

    in_vain: dict[str, int]
    asked: dict[str, int] = field(default_factory=dict)

    def get(self, name: str) -> str:
        """A request, which blocks."""
        asked = self.asked[name] = self.asked.get(name, 0) + 1
        if asked <= self.in_vain[name]:
            raise ConnectionError(f"no answer to request {asked}")
        return f"the answer to request {asked}"


def pauses() -> Iterator[float]:
    """The pauses before five requests."""
    yield 0.0
    for attempt in range(4):
        yield FIRST_PAUSE * 2**attempt


async def fetch(pool: ScheduledThreadPoolExecutor, server: Server, name: str) -> str:
    """Makes requests until one is answered."""
    for pause in pauses():
        try:
            return await asyncio.wrap_future(pool.schedule(pause, server.get, name))
        except ConnectionError as error:
            last = str(error)
    return f"given up: {last}"


async def main() -> None:
    """Makes requests side by side, and prints what came of each."""
    server = Server({"quick": 0, "busy": 3, "dead": 9})
    with ScheduledThreadPoolExecutor(max_workers=2) as pool:
        answers = await asyncio.gather(*(fetch(pool, server, name) for name in server.in_vain))
        for name, answer in zip(server.in_vain, answers):
            print(f"{name}: {answer}")
        slow = pool.schedule(PATIENCE, server.get, "quick")
        try:
            await asyncio.wait_for(asyncio.wrap_future(slow), FIRST_PAUSE)
        except asyncio.TimeoutError:
            print(f"slow: too late, and cancelled: {slow.cancelled()}")
        loop = asyncio.get_running_loop()
        answer = await loop.run_in_executor(pool, server.get, "quick")
        print(f"quick, by run_in_executor: {answer}")


if __name__ == "__main__":
    asyncio.run(main())
