"""A heartbeat by a pool of threads and the machine's clock: a call every 10 milliseconds, until it
has come five times."""

from __future__ import annotations

import queue
import time

from sched_timers import ScheduledThreadPoolExecutor

PERIOD = 0.01
BEATS = 5


def main() -> None:
    """Prints each beat, and how long after the start it came at the soonest."""
    beats: queue.SimpleQueue[float] = queue.SimpleQueue()

    def beat_now() -> None:
        beats.put(time.monotonic())

    with ScheduledThreadPoolExecutor(max_workers=2) as pool:
        start = time.monotonic()
        heartbeat = pool.schedule_at_fixed_rate(PERIOD, PERIOD, beat_now)
        for beat in range(1, BEATS + 1):
            when = "not before" if beats.get() >= start + beat * PERIOD else "before"
            print(f"beat {beat}, {when} {1000 * beat * PERIOD:.0f} ms")
        heartbeat.cancel()
    print(f"cancelled: {heartbeat.cancelled()}")


if __name__ == "__main__":
    main()
