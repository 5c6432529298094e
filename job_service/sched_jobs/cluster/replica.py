"""A log as it stands on this node: an executor that was told its lines, the jobs that follow, and the files of both.

A group is taken in the order that a turn of one machine has: its records are kept, with its lines, durably; the executor is told the
lines, and answers once they are durable; the trace has the answers, and the book takes them. So a start finds which lines of the last
group are still to be told, with nobody else's help. Where the files do not fit together they are let go, and the log is read anew.
"""

import base64
import json
import shutil
import zlib
from pathlib import Path

from sched_jobs.basics import Fault, Json, tell
from sched_jobs.cluster.groups import Group
from sched_jobs.service.beginning import kept_in, whole
from sched_jobs.service.clocks import Clocks
from sched_jobs.service.engine import Engine, ReplicaEngine, opened
from sched_jobs.store.book import Book
from sched_jobs.store.files import Unfit, replace, sync_folder
from sched_jobs.store.segments import KINDS, Store, file_of, segments_of

# So many runs of one log are under way at a time, on all nodes.
WORKERS = 64
PRIVATE = 0o700


class Replica:
    """The log on this node, from where it stands."""

    def __init__(self, folder: Path, program: str) -> None:
        folder.mkdir(mode=PRIVATE, parents=True, exist_ok=True)
        self.folder, self.program = folder, program
        self.book, self.engine, self.store = self.stand()
        self.clocks = Clocks(0)
        self.clocks.meet(self.book.moment)

    @property
    def journal(self) -> Path:
        return self.folder / "journal"

    def stand(self) -> tuple[Book, Engine, Store]:
        """All that stands in the folder, up to the end of its last group."""
        kept = kept_in(self.folder)
        engine = opened(self.program, self.journal, WORKERS, kept.jobs["lines"] + len(kept.answers), ReplicaEngine)
        try:
            book = Book.of_json(kept.jobs)
            book.replay(kept.records, kept.answers + engine.answered)
            answers = engine.answered + answers_to(book, engine, untold(kept.records, book.lines))
            if book.lines != engine.lines:
                raise Unfit(f"the journal has {engine.lines} lines, and the records stand at {book.lines}")
            if segments_of(self.folder):
                whole(self.folder, kept, answers)
            return book, engine, Store(self.folder, book.lines, book.as_json(), may_be_there=True)
        except BaseException:
            engine.abandon()
            raise

    # ---- groups

    def take(self, group: Group, revision: int, is_recorded: bool = False) -> None:
        """Takes the next group. What was asked is in the book already where this node has written it."""
        if group.number != self.book.group + 1 or group.after != self.book.lines:
            raise Fault(f"group {group.number} stands behind {group.after} lines, and {self.book.lines} are here")
        head = group.head(revision)
        self.store.keep([head, *group.records], True)
        self.book.record(head)
        for record in group.records:
            if not is_recorded or "line" in record or "move" in record:
                self.book.record(record)
        self.store.add_trace(answers_to(self.book, self.engine, group.lines))
        if not is_recorded and group.lines:
            self.clocks.meet(self.book.moment)
        if self.store.is_full() and self.book.lines > self.store.at:
            self.store = self.store.next(self.book.lines, self.book.as_json())

    # ---- snapshots

    def snapshot(self) -> bytes:
        """The jobs, and the files of the executor's journal, which stand still while it is told nothing."""
        files = {path.name: base64.b64encode(path.read_bytes()).decode() for path in sorted(self.journal.iterdir())}
        return zlib.compress(json.dumps({"jobs": self.book.as_json(), "journal": files}, separators=(",", ":")).encode())

    def install(self, content: bytes) -> None:
        """Goes on from a snapshot, in place of what is here. The history that is here stays."""
        try:
            found = json.loads(zlib.decompress(content))
        except (ValueError, zlib.error) as error:
            raise Fault("the snapshot of the log has decayed") from error
        self.close()
        shutil.rmtree(self.journal, ignore_errors=True)
        self.journal.mkdir(mode=PRIVATE)
        for name, text in found["journal"].items():
            replace(self.journal / Path(name).name, base64.b64decode(text))
        sync_folder(self.folder)
        Store(self.folder, found["jobs"]["lines"], found["jobs"], may_be_there=True).close()
        self.book, self.engine, self.store = self.stand()

    def close(self) -> None:
        self.store.close()
        self.engine.abandon()


def untold(records: list[Json], lines: int) -> list[str]:
    """The lines of the last group that the executor was not told yet."""
    heads = [record for record in records if "group" in record]
    return heads[-1]["lines"][lines - heads[-1]["after"]:] if heads else []


def answers_to(book: Book, engine: Engine, lines: list[str]) -> list[list[str]]:
    """Tells lines, and has the book take what they are answered."""
    answers = engine.exchange(lines)
    for answer in answers:
        book.answer(answer)
    return answers


def replica_in(folder: Path, program: str) -> Replica:
    """The log on this node. What does not fit together is let go."""
    try:
        return Replica(folder, program)
    except Unfit as why:
        tell(f"sched-jobs: {folder}: {why}: it is read anew from the log")
        clear(folder)
        return Replica(folder, program)


def clear(folder: Path) -> None:
    """Lets go the journal, and the segments with it."""
    shutil.rmtree(folder / "journal", ignore_errors=True)
    for at in segments_of(folder):
        for kind in KINDS:
            file_of(folder, kind, at).unlink(missing_ok=True)
    sync_folder(folder)
