#!/usr/bin/env python3
"""Stands in for `sched live --workers N --journal DIR [--answers-from M]`, over a `sched live` that keeps no journal.

    SCHED_PLAIN=PROGRAM live_stand_in.py live --workers N --journal DIR [--answers-from M]

It keeps the promises of that command:

    each line that is taken is durable, in the file DIR/lines, before its answer is written; lines of one read share a sync
    at the start the journal is told to a fresh `sched live`, whose answers are dropped, but for those of the lines behind M
    a torn end of the journal is cut
    standard error has `resumed at N lines`, also where N is 0, and `running W task K run N due D` for each run under way; both
    stand there before the answer of the first line that comes
    another process with the journal is refused: `sched: journal in use`, status 1
    a journal that can't be written ends it with status 1 before anything is answered that is not durable

It knows nothing of lines that are refused: who speaks to it says none.
"""

import argparse
import fcntl
import os
import re
import subprocess
import sys
from pathlib import Path

PIECE = 16_384
START = re.compile(rb"\d+ start (\d+) task (\d+) run (\d+) due (\d+)")
FINISH = re.compile(rb"\d+ finish (\d+) ")


def fail(text: str) -> None:
    sys.stderr.write(f"sched: {text}\n")
    sys.exit(1)


def arguments() -> argparse.Namespace:
    parser = argparse.ArgumentParser()
    parser.add_argument("command", choices=["live"])
    parser.add_argument("--workers", required=True)
    parser.add_argument("--journal", type=Path, required=True)
    parser.add_argument("--answers-from", type=int, default=None)
    return parser.parse_args()


class Live:
    """A `sched live` behind pipes, and who runs in it."""

    def __init__(self, workers: str) -> None:
        words, pipe = [os.environ["SCHED_PLAIN"], "live", "--workers", workers], subprocess.PIPE
        self.process = subprocess.Popen(words, stdin=pipe, stdout=pipe, bufsize=0)
        self.rest, self.running = b"", {}

    def exchange(self, piece: bytes) -> list[bytes]:
        """Tells whole lines, and gives back the lines that answer them."""
        wanted, found = piece.count(b"\n"), []
        try:
            self.process.stdin.write(piece)
        except BrokenPipeError:
            sys.exit(self.process.wait())
        while wanted:
            more = os.read(self.process.stdout.fileno(), 65_536)
            if not more:
                sys.exit(self.process.wait())
            *whole, self.rest = (self.rest + more).split(b"\n")
            for line in whole:
                found.append(line)
                wanted -= line.split(b" ", 2)[1] != b"end"
                self.note(line)
        return found

    def note(self, line: bytes) -> None:
        if started := START.fullmatch(line):
            worker, task, run, due = map(int, started.groups())
            self.running[worker] = f"running {worker} task {task} run {run} due {due}"
        elif finished := FINISH.match(line):
            self.running.pop(int(finished[1]), None)


def pieces(lines: bytes) -> list[bytes]:
    """Whole lines, so many at a time that the pipes hold them."""
    found, at = [], 0
    while at < len(lines):
        end = lines.rfind(b"\n", at, at + PIECE) + 1
        found.append(lines[at:end])
        at = end
    return found


def opened(folder: Path) -> int:
    """The journal, locked, and cut behind its last whole line."""
    folder.mkdir(mode=0o700, parents=True, exist_ok=True)
    journal = os.open(folder / "lines", os.O_RDWR | os.O_CREAT | os.O_APPEND, 0o600)
    try:
        fcntl.flock(journal, fcntl.LOCK_EX | fcntl.LOCK_NB)
    except BlockingIOError:
        fail("journal in use")
    content = os.pread(journal, os.fstat(journal).st_size, 0)
    os.ftruncate(journal, content.rfind(b"\n") + 1)
    os.fsync(journal)
    return journal


def say(lines: list[bytes]) -> None:
    text = b"".join(line + b"\n" for line in lines)
    while text:
        text = text[os.write(1, text):]


def resume(journal: int, live: Live, behind: int) -> None:
    """Tells the journal anew, and says where it stands."""
    lines, count = os.pread(journal, os.fstat(journal).st_size, 0), 0
    for piece in pieces(lines):
        for line in live.exchange(piece):
            count += line.split(b" ", 2)[1] != b"end"
            if count > behind:
                say([line])
    sys.stderr.write("".join(f"{text}\n" for text in [f"resumed at {count} lines", *live.running.values()]))
    sys.stderr.flush()


def main() -> None:
    asked = arguments()
    try:
        journal = opened(asked.journal)
    except OSError as error:
        fail(f"journal not read: {error.strerror}")
    live = Live(asked.workers)
    resume(journal, live, sys.maxsize if asked.answers_from is None else asked.answers_from)
    rest = b""
    while piece := os.read(0, 65_536):
        whole, _, rest = (rest + piece).rpartition(b"\n")
        if not whole:
            continue
        try:
            if os.write(journal, whole + b"\n") != len(whole) + 1:
                fail("journal not written: disk full")
            os.fdatasync(journal)
        except OSError as error:
            fail(f"journal not written: {error.strerror}")
        for part in pieces(whole + b"\n"):
            say(live.exchange(part))
    live.process.stdin.close()
    sys.exit(live.process.wait())


main()
