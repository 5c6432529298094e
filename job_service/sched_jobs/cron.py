"""Calendar times by the five fields of cron: `minute hour day month weekday`, in a zone.

The fields are read by croniter, over the local times of a clock that is never set. Where the zone sets its clock, this holds:

    the hour is given, as in `30 2 * * *`   each local time is met once: the first of two where the clock is set back over it, and
                                            where it is set forward over it the moment at which it would be if it were not set
    the hour begins with `*`                each moment at which the clock shows such a time is met: both of two, and none where
                                            the clock never shows it. So `*/5 * * * *` comes each five minutes
"""

from collections.abc import Iterator
from datetime import datetime, timedelta, tzinfo

from sched_jobs.local_times import local_of, moments_of

try:
    from croniter import CroniterBadCronError, CroniterBadDateError, croniter  # type: ignore[import]
except ImportError:
    croniter = None

FIELDS = 5
FORM = 'five fields are wanted, as "0 2 * * *": minute, hour, day, month and weekday'
# No clock is set by more than this.
WIDEST = timedelta(hours=25)
SECOND = timedelta(seconds=1)


class Cron:
    """The times of a line of cron. Moments are whole seconds since 1970."""

    def __init__(self, text: str, zone: tzinfo | None) -> None:
        """Reads the line, or raises a ValueError."""
        if croniter is None:
            raise ValueError("the module croniter is not there: Debian has it as python3-croniter")
        self.text, self.zone = text, zone
        self.comes_each_hour = len(text.split()) == FIELDS and text.split()[1].startswith("*")
        if not text.startswith("@") and len(text.split()) != FIELDS:
            raise ValueError(FORM)
        try:
            next(self.local_times(datetime(2000, 1, 1)))
        except (CroniterBadCronError, AttributeError, KeyError, TypeError) as error:
            raise ValueError(f"{text!r}: {error}") from error
        except (CroniterBadDateError, StopIteration) as error:
            raise ValueError(f"{text!r} never comes") from error

    def local_times(self, behind: datetime) -> Iterator[datetime]:
        """What a clock that is never set shows at these times, behind one that it shows."""
        times = croniter(self.text, behind)
        while True:
            yield times.get_next(datetime)

    def next(self, behind: int) -> int:
        """The first of its moments behind one."""
        return self.next_shown(behind) if self.comes_each_hour else self.next_meant(behind)

    def last(self, behind: int, until: int) -> int | None:
        """The last of its moments behind one that is not behind another; none where there is none. It looks back in steps that
        grow, so what it costs goes by how often the times come and not by how long nobody looked."""
        step, found = 1, None
        while found is None:
            begin = max(behind, until - step)
            found = self.last_between(begin, until)
            if begin == behind:
                return found
            step *= 8
        return found

    def last_between(self, behind: int, until: int) -> int | None:
        found = None
        while (moment := self.next(behind)) <= until:
            behind = found = moment
        return found

    def is_set_near(self, moment: int) -> bool:
        """Whether the zone sets its clock within a day of this moment."""
        width = int(WIDEST.total_seconds())
        return len({self.offset(moment + step * width // 4) for step in range(-4, 5)}) > 1

    def offset(self, moment: int) -> int:
        """By how many seconds the clock shows more than that of Greenwich."""
        offset = datetime.fromtimestamp(moment, self.zone).astimezone(self.zone).utcoffset()
        assert offset is not None
        return int(offset.total_seconds())

    def next_meant(self, behind: int) -> int:
        """The first moment behind one that a local time means, each of which means one."""
        here = local_of(behind, self.zone)
        if not self.is_set_near(behind):
            meant = moments_of(next(self.local_times(here)), self.zone)[0]
            if meant > behind:
                return meant
        found, last = None, None
        for local in self.local_times(here - WIDEST):
            if last is not None and local > last:
                return found
            meant = moments_of(local, self.zone)[0]
            if meant > behind and (found is None or meant < found):
                found, last = meant, local + WIDEST
        raise AssertionError

    def next_shown(self, behind: int) -> int:
        """The first moment behind one at which the clock shows such a time."""
        first = None
        while True:
            offset = self.offset(behind)
            here = local_of(behind, self.zone) if first is None else first
            local = next(self.local_times(here))
            moment = int((local - datetime(1970, 1, 1)).total_seconds()) - offset
            if self.offset(moment) == offset:
                return moment
            behind = self.set_between(behind, moment)
            first = local_of(behind, self.zone) - SECOND

    def set_between(self, low: int, high: int) -> int:
        """The first moment behind `low` at which the clock is set, which it is until `high`."""
        offset = self.offset(low)
        while high - low > 1:
            middle = (low + high) // 2
            low, high = (middle, high) if self.offset(middle) == offset else (low, middle)
        return high
