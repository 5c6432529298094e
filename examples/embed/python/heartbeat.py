"""A heartbeat: a task at a fixed rate, every 10 nanoseconds, that runs five times over a clock of
the program's own."""

from __future__ import annotations

import itertools
from collections.abc import Iterator

from sched_timers import Executor

PLAN = b"""version = 2
[[block]]
[[block.call]]
op = "rate"
name = "heartbeat"
first = 10
period = 10
"""


def beat(executor: Executor, beats: int) -> Iterator[str]:
    """Lets the clock go on until the task has run so often, and yields the lines that answer each
    event."""
    beat = 0
    for moment in itertools.count(0, 5):
        executor.clock(moment)
        yield from executor.lines()
        while executor.state().ripe:
            run = executor.start(0)
            yield from executor.lines()
            if run is None:
                break
            beat += 1   # the work of run.task stands here
            executor.finish(run.worker, beat)
            yield from executor.lines()
            if beat == beats:
                return


def main() -> None:
    """Prints the lines of five beats."""
    with Executor(PLAN, workers=1, limit=1000) as executor:
        for line in beat(executor, 5):
            print(line)


if __name__ == "__main__":
    main()
