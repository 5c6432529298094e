"""A search that waits until the typing has paused: each keystroke cancels the timer and sets it
anew.

The moments are those of a script, so that each run writes the same. With `time.monotonic_ns()` in
their place, and a wait until `next_due()`, this is a loop of a program.
"""

from __future__ import annotations

from sched_timers import Timers
from sched_timers.timers import TaskRef

MILLISECOND = 1_000_000
PAUSE = 300 * MILLISECOND
KEYSTROKES = [(0, "h"), (120, "he"), (260, "hea"), (900, "hear"), (1040, "heart"),
              (1100, "heartb"), (1400, "heartbe")]
END = 2000


class Debounce:
    """Texts of which only the last one before a pause is searched for."""

    def __init__(self, timers: Timers) -> None:
        self.timers = timers
        self.texts: list[str] = []
        self.timer: TaskRef | None = None

    def type(self, now: int, text: str) -> None:
        """A keystroke has made this text."""
        dropped = self.timer is not None and self.timers.cancel(self.timer)
        self.texts.append(text)
        self.timer = self.timers.schedule(now, PAUSE, data=len(self.texts) - 1)
        tell(now, f"{text}, and the search for {self.texts[-2]} is dropped" if dropped else text)

    def catch_up(self, until: int) -> None:
        """Searches for each text that is due by then, at its moment."""
        while (due := self.timers.next_due()) is not None and due <= until:
            if (run := self.timers.poll(due)) is not None:
                tell(due, f"    search for {self.texts[run.data]}")
                self.timers.finish(due)


def tell(now: int, what: str) -> None:
    """Prints what comes at a moment."""
    print(f"{now // MILLISECOND:5} ms  {what}")


def main() -> None:
    """Types the script, with a search at each pause."""
    with Timers(workers=1) as timers:
        search = Debounce(timers)
        for moment, text in KEYSTROKES:
            search.catch_up(moment * MILLISECOND)
            search.type(moment * MILLISECOND, text)
        search.catch_up(END * MILLISECOND)


if __name__ == "__main__":
    main()
