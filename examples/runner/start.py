"""The moment of the wall clock at which a plan starts, and the wait for it.

The wall clock can be set, so it is read again each second: what it shows decides, and not how long was slept. Linux can end
a sleep when the clock is set (`timerfd_create`), which Python has from 3.13 on.
"""

import re
import time
from collections.abc import Callable
from dataclasses import dataclass
from datetime import date, datetime, timedelta
from datetime import time as DayTime

from basics import SECOND, Fault

FORMS = "HH:MM[:SS] or YYYY-MM-DD HH:MM[:SS]"
WRITTEN = re.compile(r"(?:(\d{4})-(\d\d)-(\d\d)[ T])?(\d\d):(\d\d)(?::(\d\d))?", re.ASCII)
LONGEST_SLEEP = SECOND
DAY = timedelta(days=1)


def moments_of(local: datetime) -> list[int]:
    """The moments, in seconds, at which a clock here shows this: two where it is set back over it. Where it is set forward
    over it there is one: when it would show this if it were not set."""
    first, second = (int(local.replace(fold=fold).timestamp()) for fold in (0, 1))
    return [first, second] if first < second else [first]


def shown(moment: int) -> str:
    """What a clock here shows at a moment in nanoseconds."""
    return time.strftime("%Y-%m-%d %H:%M:%S %z", time.localtime(moment // SECOND))


@dataclass(frozen=True)
class When:
    """A time of each day, or of one."""

    text: str
    day: date | None
    time: DayTime

    def next(self, now: int) -> int:
        """The first of its moments that is not past. All are nanoseconds."""
        today = date.fromtimestamp(now // SECOND)
        days = [today - DAY, today, today + DAY] if self.day is None else [self.day]
        moments = [moment * SECOND for day in days for moment in moments_of(datetime.combine(day, self.time))]
        coming = [moment for moment in moments if moment >= now]
        if not coming:
            raise Fault(f"start: Past {self.text!r}: it is {shown(now)} now")
        return min(coming)


def read_when(text: str) -> When:
    """The time that is written so, or a ValueError."""
    words = WRITTEN.fullmatch(text)
    if words is None:
        raise ValueError(f"{text!r} is not {FORMS}")
    year, month, day, *clock = (None if word is None else int(word) for word in words.groups())
    try:
        when = When(text, None if year is None else date(year, month, day), DayTime(*(part or 0 for part in clock)))
        moments_of(datetime.combine(when.day or date.today(), when.time))
    except (ValueError, OverflowError, OSError) as error:
        raise ValueError(f"{text!r} is no time of a clock") from error
    return when


@dataclass(frozen=True)
class Start:
    """A moment of the wall clock. It was not reached at `seen`, which is a moment of the steady clock."""

    moment: int
    seen: int

    def wait(
        self, sleep: Callable[[float], bool],
        wall: Callable[[], int] = time.time_ns, steady: Callable[[], int] = time.monotonic_ns,
    ) -> int | None:
        """Waits until the wall clock reaches the moment, or is set to a later one. Answers when that was by the steady
        clock, and none where a sleep, which takes seconds, says that it was the last one."""
        seen = self.seen
        while (left := self.moment - wall()) > 0:
            seen = steady()
            if not sleep(min(left, LONGEST_SLEEP) / SECOND):
                return None
        return max(steady() + left, seen)


def start_at(when: When) -> Start:
    """The next of these moments."""
    seen = time.monotonic_ns()
    return Start(when.next(time.time_ns()), seen)
