"""A turn of the service: what is kept and what the executor is told at once, so that many requests and ends share a sync.

The order is what makes it safe, whenever the service, the executor or the machine ends in between:

    1. records and notes are kept, durably where a job or a submission is among them
    2. the executor is told the lines, and answers once they are durable in its journal
    3. the answers are added to the trace, and the book takes them
    4. only now is anybody answered, or a process started, or the mark of one taken away

Ended behind 1, the jobs are known and their lines are not: a start finds that from the numbers of the lines, and tells them anew.
Ended behind 2, the answers come again. Ended behind 3, a run that was given out has no mark, and is begun.
"""

import copy
from dataclasses import dataclass, field

from sched_jobs.basics import Json, tell
from sched_jobs.service.engine import Engine
from sched_jobs.store.book import Book
from sched_jobs.store.entries import Entry
from sched_jobs.store.files import Unwritten
from sched_jobs.store.segments import Store


@dataclass
class Turn:
    """What is kept and told together, at a moment. The book has the records already, and lets them go again where they are not kept."""

    book: Book
    now: int
    records: list[Json] = field(default_factory=list)
    lines: list[str] = field(default_factory=list)
    before: list[tuple[str, Entry | None]] = field(default_factory=list)
    is_durable: bool = False

    def record(self, record: Json) -> None:
        """Has a record of a job kept."""
        name = record["put"]["name"] if "put" in record else record["set"]
        self.before.append((name, copy.copy(self.book.entries.get(name))))
        self.book.record(record)
        self.records.append(record)
        self.is_durable = True

    def say(self, line: str, note: Json | None = None, is_durable: bool = False) -> None:
        """Has a line told, with what is noted of it. Before the first one the clock is."""
        if not self.lines:
            self.lines.append(f"clock {self.now}")
        self.lines.append(line)
        if note is not None:
            record = {"line": self.book.lines + len(self.lines)} | note
            self.records.append(record)
            self.is_durable |= is_durable

    def undo(self) -> None:
        """The book as it was before."""
        for name, entry in reversed(self.before):
            if entry is None:
                del self.book.entries[name]
            else:
                self.book.entries[name] = entry
                self.book.over.pop(name, None)
                self.book.settle(entry)

    def commit(self, store: Store, engine: Engine) -> list[list[str]]:
        """Keeps and tells all of it, and gives back the answers. At an Unwritten nothing was."""
        try:
            if self.records:
                store.keep(self.records, self.is_durable)
        except Unwritten:
            self.undo()
            raise
        for record in self.records:
            if "line" in record:
                self.book.record(record)
        answers = engine.exchange(self.lines)
        try:
            store.add_trace(answers)
        except Unwritten as fault:
            tell(f"sched-jobs: {fault}: the trace is held")
        for answer in answers:
            self.book.answer(answer)
        return answers
