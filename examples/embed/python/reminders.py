"""Reminders, many in one call."""

from __future__ import annotations

from sched_timers import DelayQueue
from sched_timers.delay_queue import EntryExistsError

MINUTE = 60_000_000_000
NAMES = ["stretch", "drink water", "look up", "call home"]


def main() -> None:
    """Prints each reminder at its minute."""
    with DelayQueue(len(NAMES)) as reminders:
        reminders.insert([(30 * MINUTE, 0), (20 * MINUTE, 1), (20 * MINUTE, 2), (90 * MINUTE, 3)])
        try:
            reminders.insert([(10 * MINUTE, 1)])
        except EntryExistsError as refused:
            print(f"{NAMES[1]}: {refused}")
        reminders.remove(3)
        if (first := reminders.peek()) is not None:
            print(f"{len(reminders)} reminders, the next in {first[0] // MINUTE} minutes")
        for now in (10, 25, 60):
            for _, task in reminders.poll(now * MINUTE):
                print(f"{now} minutes: {NAMES[task]}")


if __name__ == "__main__":
    main()
