"""What the service is asked to do of a job: the keys of a table beside those of a plan's jobs, and when it runs.

An order is a table as TOML and JSON have it, so that one reader serves `add`, `reload` and the records. Beside the keys of
`sched_jobs.jobs`, of which `timeout_s` may be left out here, it has at most one of

    in = "5m"              once, so long after it was added
    at = "02:30"           once, when the wall clock shows this: HH:MM[:SS], or YYYY-MM-DD HH:MM[:SS]
    every = "5m"           again and again, from one due moment to the next
    after = "5m"           again and again, so long after each end
    cron = "0 2 * * *"     at calendar times
    (none)                 once, at once

and may have

    timezone = "Europe/Berlin"   of `at` and `cron`; the machine's where left out
    catch_up = "all"             what is done of runs that were missed; "last" where left out, or "none"
    on_crash = "retry"           what becomes of a run whose end nobody saw; "fail" where left out, or "ok"
    jitter = "30s"               by up to so much, at random, it is due later
"""

from dataclasses import dataclass
from datetime import tzinfo

from sched_jobs.basics import Json
from sched_jobs.cron import FORM as CRON_FORM
from sched_jobs.cron import Cron
from sched_jobs.jobs import KEYS, Job, Key, Source, fields_of, timeout_of
from sched_jobs.local_times import FORMS, When, read_when, zone_of
from sched_jobs.spans import FORM, read_span

LONGEST_NAME = 64
NAME_LETTERS = frozenset("abcdefghijklmnopqrstuvwxyzABCDEFGHIJKLMNOPQRSTUVWXYZ0123456789-_.@:")
TIMES = ("in", "at", "every", "after", "cron")
SPOKEN = Source("", "")


@dataclass(frozen=True)
class Timing:
    """When a job runs. Spans and moments are nanoseconds, and one of them stands; none for a job that runs at once."""

    in_: int | None
    at: str | None
    every: int | None
    after: int | None
    cron: str | None
    zone_name: str | None

    @property
    def zone(self) -> tzinfo | None:
        return zone_of(self.zone_name)

    @property
    def is_once(self) -> bool:
        return self.every is None and self.after is None and self.cron is None

    def when(self) -> When:
        assert self.at is not None
        return read_when(self.at, self.zone)

    def calendar(self) -> Cron:
        assert self.cron is not None
        return Cron(self.cron, self.zone)


@dataclass(frozen=True)
class Order:
    """A job of the service."""

    job: Job
    timing: Timing
    catch_up: str
    on_crash: str
    jitter: int


# ---- the value of a key, which is none where the key is left out; a ValueError where it is none of the key's


def span_of(value: object) -> int | None:
    if value is None:
        return None
    if not isinstance(value, str):
        raise ValueError(FORM)
    return read_span(value)


def period_of(value: object) -> int | None:
    span = span_of(value)
    if span == 0:
        raise ValueError("a span above 0 is wanted")
    return span


def jitter_of(value: object) -> int:
    return span_of(value) or 0


def text_of(value: object) -> str | None:
    if value is not None and not isinstance(value, str):
        raise ValueError
    return value


def some_timeout_of(value: object) -> int | None:
    return None if value is None else timeout_of(value)


def catch_up_of(value: object) -> str:
    return one_of(("last", "all", "none"), value)


def on_crash_of(value: object) -> str:
    return one_of(("fail", "retry", "ok"), value)


def one_of(words: tuple[str, ...], value: object) -> str:
    """One of some words, the first where it is left out."""
    if value is None:
        return words[0]
    if not isinstance(value, str) or value not in words:
        raise ValueError
    return value


ORDER_KEYS = KEYS | {
    "timeout_s": Key("timeout", some_timeout_of, "BadTimeout", "a number of seconds above 0 is wanted"),
    "in": Key("in_", span_of, "BadIn", FORM),
    "at": Key("at", text_of, "BadAt", f"{FORMS} is wanted"),
    "every": Key("every", period_of, "BadEvery", FORM),
    "after": Key("after", period_of, "BadAfter", FORM),
    "cron": Key("cron", text_of, "BadCron", CRON_FORM),
    "timezone": Key("zone_name", text_of, "BadTimezone", "the name of a zone is wanted, as Europe/Berlin"),
    "catch_up": Key("catch_up", catch_up_of, "BadCatchUp", 'catch_up is "last", "all" or "none"'),
    "on_crash": Key("on_crash", on_crash_of, "BadOnCrash", 'on_crash is "fail", "retry" or "ok"'),
    "jitter": Key("jitter", jitter_of, "BadJitter", FORM),
}
OF_TIMING = ("in_", "at", "every", "after", "cron", "zone_name")
OF_ORDER = ("catch_up", "on_crash", "jitter")


def is_name(name: object) -> bool:
    """Whether a job may have this name, which stands in lines, metrics and names of files."""
    return isinstance(name, str) and 1 <= len(name) <= LONGEST_NAME and NAME_LETTERS.issuperset(name) and name[0] not in ".-"


def check_timing(name: str, timing: Timing, table: Json, source: Source) -> None:
    """At most one time is given, and it is one."""
    given = [word for word in TIMES if word in table]
    if len(given) > 1:
        raise source.fault(f"TwoTimes {name!r}: at most one of {', '.join(TIMES)}", name, given[1])
    if timing.zone_name is not None and timing.at is None and timing.cron is None:
        raise source.fault(f"BadTimezone {name!r}: only at and cron have a zone", name, "timezone")
    for word, read in (("timezone", lambda: timing.zone), ("at", timing.when), ("cron", timing.calendar)):
        if word not in table:
            continue
        try:
            read()
        except ValueError as error:
            raise source.fault(f"{ORDER_KEYS[word].fault} {name!r}: {error}", name, word) from error


def order_of(name: object, table: object, source: Source = SPOKEN) -> Order:
    """The order of a table, or a Fault. A job that runs again and again goes on after a failure where it does not say."""
    if not isinstance(name, str) or not is_name(name):
        raise source.fault(f"BadName {name!r}: 1 to {LONGEST_NAME} letters, digits and -_.@: are wanted, with none of .- in front")
    fields = fields_of(name, table, source, ORDER_KEYS)
    timing = Timing(**{word: fields.pop(word) for word in OF_TIMING})
    assert isinstance(table, dict)
    check_timing(name, timing, table, source)
    rest = {word: fields.pop(word) for word in OF_ORDER}
    if not timing.is_once and "on_failure" not in table:
        fields["goes_on"] = True
    return Order(Job(**fields), timing, **rest)
