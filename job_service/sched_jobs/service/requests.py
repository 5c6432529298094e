"""What may be asked of the service. Each request gives the records that it wants kept, and what is answered once they are durable."""

import os
import random
from collections.abc import Callable
from dataclasses import dataclass, field
from pathlib import Path
from typing import Protocol

from sched_jobs.attempts import Attempts
from sched_jobs.basics import Fault, Json
from sched_jobs.service import views
from sched_jobs.service.clocks import Clocks
from sched_jobs.service.orders import TIMES, Order, order_of
from sched_jobs.service.wishes import handled_of, known
from sched_jobs.store.book import Book
from sched_jobs.store.entries import CANCELLED, LIVE, PAUSED, Entry

# What a job is due by; where one of these changes, it is found anew.
OF_TIMES = (*TIMES, "timezone", "jitter")


class Refused(Exception):
    """Why a request is refused."""


class Desk(Protocol):
    """What requests see of the jobs."""

    folder: Path
    book: Book
    clocks: Clocks


class ServiceDesk(Desk, Protocol):
    """What requests see of the service."""

    attempts: Attempts
    workers: int
    served_since: int

    def leave(self, how: str) -> None: ...


@dataclass
class Outcome:
    """What becomes of a request: records, what is done once they are durable, and what is answered then. `cancel` are the tasks whose
    runs have no further attempt, and whether they are ended."""

    reply: Callable[[], Json]
    records: list[Json] = field(default_factory=list)
    after: Callable[[], None] = lambda: None
    cancel: tuple[set[int], bool] | None = None


def times_of(order: Order, name: str, clocks: Clocks) -> Json:
    """When a job is due first, if it is added now."""
    timing, now, wall = order.timing, clocks.now(), clocks.wall()
    jitter = random.randrange(order.jitter + 1)
    if timing.at is not None:
        try:
            return {"aim": timing.when().next(wall) + jitter}
        except Fault as fault:
            raise Refused(f"BadAt {name!r}: {fault}") from fault
    if timing.cron is not None:
        return {"aimed": wall}
    return {"due": now + jitter + (timing.in_ or timing.every or timing.after or 0)}


def new_entry(name: str, table: Json, source: str, clocks: Clocks) -> Entry:
    return Entry(name, table, clocks.wall(), **times_of(order_of(name, table), name, clocks), source=source)


def order_for(desk: Desk, name: object, table: object) -> Order:
    """The order of a table, whose output is none of the service's own files."""
    order = order_of(name, table)
    output = order.job.output
    if output is not None and Path(os.path.realpath(os.fsdecode(output))).is_relative_to(os.path.realpath(desk.folder)):
        raise Refused(f"BadOutput {name!r}: the service keeps its own files there")
    return order


def put(desk: Desk, entry: Entry) -> Json:
    return {"after": desk.book.lines, "put": entry.as_json()}


def change(desk: Desk, entry: Entry, **fields: object) -> Json:
    return {"after": desk.book.lines, "set": entry.name, **fields}


def entry_named(desk: Desk, asked: Json, is_open: bool = True) -> Entry:
    name = asked.get("name")
    entry = desk.book.entries.get(name) if isinstance(name, str) else None
    if entry is None:
        raise Refused(f"UnknownName {name!r}: there is no such job")
    if is_open and not entry.is_open:
        raise Refused(f"Over {entry.name!r}: it is over: {entry.over}")
    return entry


def told(desk: Desk, name: str) -> Json:
    return {"job": views.of_entry(desk.book.entries[name], desk.book, desk.clocks)}


# ---- requests


def add(desk: Desk, asked: Json) -> Outcome:
    name, table = asked.get("name"), asked.get("table")
    order_for(desk, name, table)
    assert isinstance(name, str) and isinstance(table, dict)
    before = desk.book.entries.get(name)
    if before is not None and before.is_open:
        raise Refused(f"Known {name!r}: there is a job of this name")
    entry = new_entry(name, table, "add", desk.clocks)
    return Outcome(lambda: told(desk, entry.name), [put(desk, entry)])


def cancel(desk: Desk, asked: Json) -> Outcome:
    entry = entry_named(desk, asked)
    tasks = {run.task for run in desk.book.runs_of(entry.name)}
    cancelled = [change(desk, entry, state=CANCELLED)]
    return Outcome(lambda: told(desk, entry.name), cancelled, cancel=(tasks, asked.get("end") is True))


def pause(desk: Desk, asked: Json) -> Outcome:
    entry = entry_named(desk, asked)
    if entry.state != LIVE:
        raise Refused(f"Paused {entry.name!r}: it is {entry.state}")
    return Outcome(lambda: told(desk, entry.name), [change(desk, entry, state=PAUSED)])


def resume(desk: Desk, asked: Json) -> Outcome:
    """What it was due at while it was paused is not made up for, but for a job that runs once."""
    entry = entry_named(desk, asked)
    if entry.state != PAUSED:
        raise Refused(f"NotPaused {entry.name!r}: it is {views.state_of(entry, desk.book)}")
    fields: Json = {"state": LIVE}
    timing, now = entry.order.timing, desk.clocks.now()
    if timing.every is not None:
        handled = handled_of(entry, timing.every)
        fields["grid"] = handled + max(0, (now - handled) // timing.every) * timing.every
    if timing.cron is not None:
        fields["aimed"] = max(known(entry.aimed), desk.clocks.wall())
    return Outcome(lambda: told(desk, entry.name), [change(desk, entry, **fields)])


def reload(desk: Desk, asked: Json) -> Outcome:
    """The jobs of a file become what it says: all of it, or, where something is wrong, nothing."""
    tables, source = asked.get("tables"), asked.get("file")
    if not isinstance(tables, dict) or not isinstance(source, str) or not source.startswith("/"):
        raise Refused("a file and its tables are wanted")
    records, counts = [], {"added": 0, "changed": 0, "kept": 0, "cancelled": 0}
    for name, table in tables.items():
        record, word = reloaded(desk, name, table, source)
        records += record
        counts[word] += 1
    for entry in desk.book.entries.values():
        if entry.source == source and entry.is_open and entry.name not in tables:
            records.append(change(desk, entry, state=CANCELLED))
            counts["cancelled"] += 1
    return Outcome(lambda: counts, records)


def reloaded(desk: Desk, name: str, table: Json, source: str) -> tuple[list[Json], str]:
    """What becomes of one job of a file, in records and in a word."""
    order, before = order_for(desk, name, table), desk.book.entries.get(name)
    if before is not None and before.is_open and before.source != source:
        raise Refused(f"Known {name!r}: there is a job of this name, from {before.source!r}")
    is_done = before is not None and before.is_once and before.over in ("done", "failed", "missed") and before.table == table
    if before is None or not before.is_open and not is_done:
        return [put(desk, new_entry(name, table, source, desk.clocks))], "added"
    if before.table == table:
        return [], "kept"
    if all(before.table.get(key) == table.get(key) for key in OF_TIMES):
        return [change(desk, before, table=table)], "changed"
    times = {"due": None, "aim": None, "grid": None, "aimed": None} | times_of(order, name, desk.clocks)
    return [change(desk, before, table=table, version=before.version + 1, **times)], "changed"


def show_all(desk: Desk, asked: Json) -> Outcome:
    entries = [entry for entry in desk.book.entries.values() if entry.is_open or asked.get("all") is True]
    return Outcome(lambda: {"jobs": [views.of_entry(entry, desk.book, desk.clocks) for entry in entries]})


def show(desk: Desk, asked: Json) -> Outcome:
    entry = entry_named(desk, asked, is_open=False)
    return Outcome(lambda: told(desk, entry.name))


CHANGES: dict[str, Callable[[Desk, Json], Outcome]] = {
    "add": add, "cancel": cancel, "pause": pause, "resume": resume, "reload": reload,
}
LOOKS: dict[str, Callable[[Desk, Json], Outcome]] = {"list": show_all, "show": show}


def status(desk: ServiceDesk, asked: Json) -> Outcome:
    return Outcome(lambda: views.of_service(desk.book, desk.clocks, desk.workers, desk.served_since))


def stop(desk: ServiceDesk, asked: Json) -> Outcome:
    how = how_of(asked)
    return Outcome(lambda: {"running": len(desk.attempts.processes())}, after=lambda: desk.leave(how))


def how_of(asked: Json) -> str:
    """How a stop is meant."""
    how = asked.get("how", "wait")
    if how not in ("wait", "end", "leave"):
        raise Refused('how is "wait", "end" or "leave"')
    return how


REQUESTS: dict[str, Callable[[ServiceDesk, Json], Outcome]] = {**CHANGES, **LOOKS, "status": status, "stop": stop}


def word_of(asked: object) -> tuple[str, Json]:
    """What is asked, or a Refused."""
    if not isinstance(asked, dict) or not isinstance(asked.get("do"), str) or asked["do"] not in REQUESTS:
        raise Refused(f"a request is wanted, and do is one of {', '.join(REQUESTS)}")
    return asked["do"], asked


def outcome_of(desk: ServiceDesk, asked: object) -> Outcome:
    """What becomes of a request; a Refused or a Fault says why nothing does."""
    word, request = word_of(asked)
    return REQUESTS[word](desk, request)
