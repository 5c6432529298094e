"""The jobs as they stand, which follows from what was asked of the service and what the executor answered, and from nothing else.

`record` takes what was asked, `answer` what was answered, both in their order: so a start, which reads both from the files, gives the
book that there was. Nothing here reads a clock or a file. A record is one of

    {"after": N, "put": {..}}                a job, whole; it takes the place of one that is over
    {"after": N, "set": NAME, ..: ..}        fields of a job
    {"line": L, "job": NAME, ..: ..}         a note: line L submits a task for this job, with what it stands for
    {"line": L, "code": C, "why": ..}        a note: line L ends a run that had this code, and with "stops" its job

and on many machines also

    {"line": L, "node": NODE}                a note: the run that line L begins is this node's
    {"after": N, "move": W, "node": ..}      the run of worker W is another node's from now on, which begins with another attempt
    {"after": N, "group": G, "revision": ..} the group of the log behind which all this stands, with its lines

where N is how many lines had been answered.
"""

from collections.abc import Callable, Iterable

from sched_jobs.basics import Fault, Json
from sched_jobs.store.entries import RAN, Ended, Entry, Running
from sched_jobs.store.files import Unfit

VERSION = 2
# How many jobs that are over are still known.
MOST_OVER = 1_000
Listener = Callable[[Ended], None]


class Book:
    """The jobs, and what the executor has of them."""

    def __init__(self, listener: Listener | None = None) -> None:
        self.entries: dict[str, Entry] = {}
        self.tasks: dict[int, str] = {}
        self.running: dict[int, Running] = {}
        self.notes: dict[int, Json] = {}
        self.lines = self.moment = self.clock = self.runs = self.failed = 0
        # The last group of the log, its revision, what its writer's wall clock was ahead, and the last mail of each node.
        self.group = self.revision = self.ahead = 0
        self.heard: dict[str, str] = {}
        self.removes = False
        self.dirty: set[str] = set()
        # The jobs that are over, the first of them first.
        self.over: dict[str, None] = {}
        self.listener = listener

    # ---- as JSON

    def as_json(self) -> Json:
        return {
            "version": VERSION, "lines": self.lines, "moment": self.moment, "clock": self.clock, "runs": self.runs,
            "failed": self.failed, "removes": self.removes, "entries": [entry.as_json() for entry in self.entries.values()],
            "tasks": list(self.tasks.items()), "running": [vars(run) for run in self.running.values()],
            "group": self.group, "revision": self.revision, "ahead": self.ahead, "heard": self.heard,
        }

    @staticmethod
    def of_json(value: Json, listener: Listener | None = None) -> "Book":
        if value.get("version") != VERSION:
            raise Fault(f"the jobs are of version {value.get('version')}, and this is one for version {VERSION}")
        book = Book(listener)
        book.lines, book.moment, book.clock = value["lines"], value["moment"], value["clock"]
        book.runs, book.failed, book.removes = value["runs"], value["failed"], value["removes"]
        book.group, book.revision, book.ahead, book.heard = value["group"], value["revision"], value["ahead"], value["heard"]
        book.entries = {fields["name"]: Entry(**fields) for fields in value["entries"]}
        book.over = {entry.name: None for entry in book.entries.values() if not entry.is_open}
        book.tasks = {task: name for task, name in value["tasks"]}
        book.running = {fields["worker"]: Running(**fields) for fields in value["running"]}
        return book

    def replay(self, records: Iterable[Json], answers: list[list[str]]) -> None:
        """Takes what a segment holds, each record behind the answers that stood before it."""
        left = iter(answers)
        for record in records:
            while self.lines < record.get("after", 0):
                if (answer := next(left, None)) is None:
                    raise Unfit(f"a record stands behind {record['after']} lines, and the journal has {self.lines}")
                self.answer(answer)
            self.record(record)
        for answer in left:
            self.answer(answer)

    # ---- what was asked

    def record(self, record: Json) -> None:
        if "line" in record:
            self.notes[record["line"]] = record
        elif "put" in record:
            self.put(Entry(**record["put"]))
        elif "group" in record:
            self.group, self.revision, self.ahead = record["group"], record["revision"], record["ahead"]
            self.heard = self.heard | record["heard"]
        elif "move" in record:
            run = self.running[record["move"]]
            run.node, run.attempt, run.fence = record["node"], record["attempt"], self.revision
        else:
            self.set(self.entries[record["set"]], {key: value for key, value in record.items() if key not in ("set", "after")})

    def put(self, entry: Entry) -> None:
        self.entries.pop(entry.name, None)
        self.over.pop(entry.name, None)
        self.entries[entry.name] = entry
        self.dirty.add(entry.name)
        self.forget_some()

    def set(self, entry: Entry, fields: Json) -> None:
        for key, value in fields.items():
            setattr(entry, key, value)
        entry.__dict__.pop("order", None)
        self.settle(entry)

    def forget_some(self) -> None:
        """Of the jobs that are over the last ones are known."""
        while len(self.over) > MOST_OVER:
            name = next(iter(self.over))
            del self.over[name], self.entries[name]

    def settle(self, entry: Entry) -> None:
        """A job that was given up is over once the executor has nothing of it. What has changed is looked at again."""
        if entry.is_given_up and entry.task is None and not self.runs_of(entry.name) and entry.is_open:
            entry.over = entry.state
        if not entry.is_open:
            self.over[entry.name] = None
        self.dirty.add(entry.name)

    def runs_of(self, name: str) -> list[Running]:
        return [run for run in self.running.values() if run.name == name]

    # ---- what was answered

    def answer(self, lines: list[str]) -> None:
        """Takes what answers the next line: its own line first."""
        self.lines += 1
        note = self.notes.pop(self.lines, {})
        words = lines[0].split()
        self.moment = max(self.moment, int(words[0]))
        match words[1:]:
            case ["clock"]:
                self.clock = int(words[0])
            case ["submit", task, _, "due", due]:
                self.submitted(int(task), int(due), note)
            case ["start", worker, "task", task, "run", number, "due", due]:
                run = Running(int(worker), int(task), int(number), int(due), int(words[0]), self.tasks[int(task)])
                run.node, run.fence = note.get("node", ""), self.revision
                self.started(run)
            case ["finish", worker, "task", _, "run", _, *outcome]:
                self.finished(self.running.pop(int(worker)), int(words[0]), outcome, note)
            case ["outside", task, _]:
                self.cancelled(int(task))
            case ["policy", "remove", "true"]:
                self.removes = True
            case ["start", _, "idle"] | ["ask", *_]:
                pass
            case _:
                raise Fault(f"the executor answered {lines[0]!r}")

    def submitted(self, task: int, due: int, note: Json) -> None:
        if "job" not in note:
            raise Unfit(f"nothing is noted of the task {task} that line {self.lines} submits")
        entry = self.entries[note["job"]]
        self.tasks[task] = entry.name
        entry.task, entry.task_due = task, due
        entry.task_note = {key: value for key, value in note.items() if key not in ("line", "job", "missed")}
        entry.missed += note.get("missed", 0)
        if "skip" in note:
            self.passed(entry, note["skip"])
        self.settle(entry)

    def passed(self, entry: Entry, until: dict[str, int]) -> None:
        """Up to these no run begins any more."""
        entry.grid = until.get("grid", entry.grid)
        entry.aimed = until.get("aim", entry.aimed)

    def started(self, run: Running) -> None:
        self.running[run.worker] = run
        entry = self.entries[run.name]
        if entry.task == run.task:
            entry.task_due = None
            self.passed(entry, {"grid": entry.task_note.get("grid", run.due)} | (
                {"aim": entry.task_note["aim"]} if "aim" in entry.task_note else {}))
        self.settle(entry)

    def cancelled(self, task: int) -> None:
        """No run of the task begins any more. One that is under way goes on."""
        entry = self.entries[self.tasks[task]]
        if entry.task == task:
            entry.task = entry.task_due = None
        if all(run.task != task for run in self.running.values()):
            del self.tasks[task]
        self.settle(entry)

    def finished(self, run: Running, moment: int, outcome: list[str], note: Json) -> None:
        entry = self.entries[run.name]
        code = note.get("code", int(outcome[1]) if outcome[0] in ("done", "failed") else None)
        ended = Ended(run, moment, outcome[0], code, note.get("why", RAN), note.get("attempts", 1))
        self.count(entry, ended)
        if outcome[0] == "again":
            entry.task_due = int(outcome[2])
        else:
            self.tasks.pop(run.task, None)
            if entry.task == run.task:
                entry.task = entry.task_due = None
                if entry.is_once:
                    entry.over = "failed" if ended.is_failed else "done"
            if note.get("stops") and not entry.is_given_up or outcome[0] == "failed":
                entry.over = "failed"
        self.settle(entry)
        if self.listener is not None:
            self.listener(ended)

    def count(self, entry: Entry, ended: Ended) -> None:
        entry.runs, self.runs = entry.runs + 1, self.runs + 1
        entry.failed, self.failed = entry.failed + ended.is_failed, self.failed + ended.is_failed
        entry.last = {"start": ended.run.start, "end": ended.end, "code": ended.code, "why": ended.why, "attempts": ended.attempts}
