"""Times as a clock on the wall shows them, here or in a named zone, and the moments that they are."""

import re
from dataclasses import dataclass
from datetime import date, datetime, timedelta, tzinfo
from datetime import time as DayTime
from zoneinfo import ZoneInfo, ZoneInfoNotFoundError

from sched_jobs.basics import SECOND, Fault

FORMS = "HH:MM[:SS] or YYYY-MM-DD HH:MM[:SS]"
WRITTEN = re.compile(r"(?:(\d{4})-(\d\d)-(\d\d)[ T])?(\d\d):(\d\d)(?::(\d\d))?", re.ASCII)
DAY = timedelta(days=1)


def zone_of(name: str | None) -> tzinfo | None:
    """The zone of a name, as Europe/Berlin; none, which is the machine's, where it is left out. Else a ValueError."""
    if name is None:
        return None
    try:
        return ZoneInfo(name)
    except (ZoneInfoNotFoundError, ValueError, OSError) as error:
        raise ValueError(f"{name!r} is no zone that this machine knows") from error


def moments_of(local: datetime, zone: tzinfo | None = None) -> list[int]:
    """The moments, in seconds, at which a clock shows this: two where it is set back over it. Where it is set forward over it
    there is one: when it would show this if it were not set."""
    first, second = (int(local.replace(fold=fold, tzinfo=zone).timestamp()) for fold in (0, 1))
    return [first, second] if first < second else [first]


def local_of(moment: int, zone: tzinfo | None = None) -> datetime:
    """What a clock shows at a moment, in seconds."""
    return datetime.fromtimestamp(moment, zone).replace(tzinfo=None, fold=0)


def shown(moment: int, zone: tzinfo | None = None) -> str:
    """What a clock shows at a moment in nanoseconds."""
    return datetime.fromtimestamp(moment // SECOND, zone).astimezone(zone).strftime("%Y-%m-%d %H:%M:%S %z")


@dataclass(frozen=True)
class When:
    """A time of each day, or of one."""

    text: str
    day: date | None
    time: DayTime
    zone: tzinfo | None = None

    def next(self, now: int) -> int:
        """The first of its moments that is not past. All are nanoseconds."""
        today = local_of(now // SECOND, self.zone).date()
        days = [today - DAY, today, today + DAY] if self.day is None else [self.day]
        moments = [moment * SECOND for day in days for moment in moments_of(datetime.combine(day, self.time), self.zone)]
        coming = [moment for moment in moments if moment >= now]
        if not coming:
            raise Fault(f"Past {self.text!r}: it is {shown(now, self.zone)} now")
        return min(coming)


def read_when(text: str, zone: tzinfo | None = None) -> When:
    """The time that is written so, or a ValueError."""
    words = WRITTEN.fullmatch(text)
    if words is None:
        raise ValueError(f"{text!r} is not {FORMS}")
    year, month, day, *clock = (None if word is None else int(word) for word in words.groups())
    try:
        hour, minute, second = (part or 0 for part in clock)
        written = None if year is None else date(year, month or 0, day or 0)
        when = When(text, written, DayTime(hour, minute, second), zone)
        moments_of(datetime.combine(when.day or date.today(), when.time), zone)
    except (ValueError, OverflowError, OSError) as error:
        raise ValueError(f"{text!r} is no time of a clock") from error
    return when
