"""Marks of attempts: files that say which process an attempt is, and how it ended, also where nobody waits for it any more.

An attempt is made by a shell, the first process of a session and group of its own. It makes the mark K.N.A, of task K, run N and
attempt A, before anything else, as a new file with its number and when it was started; it runs the command, and adds the code.
So, whenever the service is killed:

    no mark             the command was not begun. A shell that is there still finds the mark of the next one, and ends
    a process           that number and start belong to one process alone: it is under way, or it ended and nobody knows how
    a process, a code   the command ended so

After the machine itself has died a mark that is not there says nothing, since no mark is synced.
"""

import os
from dataclasses import dataclass
from pathlib import Path

# What ended, and nobody saw how.
LOST = 125
STARTED = " ".join(f"_sched_{place}" for place in range(1, 22))
SHELL = f"""
set -C
read -r {STARTED} _sched_start _sched_rest < /proc/self/stat
{{ echo "$$ $_sched_start" > "$1"; }} 2> /dev/null || exit {LOST}
_sched_mark=$1
shift
trap : TERM INT HUP QUIT
"$@"
_sched_code=$?
echo "$_sched_code" >> "$_sched_mark"
exit "$_sched_code"
"""
BOOT = Path("/proc/sys/kernel/random/boot_id")
START_FIELD = 19


def boot() -> str:
    """The name of the time since the machine was started."""
    return BOOT.read_text().strip()


def wrapped(mark: Path, command: list[bytes]) -> list[bytes]:
    """The command of a shell that makes a mark and runs a command."""
    return [b"/bin/sh", b"-c", SHELL.encode(), b"sched-jobs", os.fsencode(mark), *command]


def start_of(process: int) -> int | None:
    """When a process was started, in ticks since the machine was; none where it is not there, or has ended."""
    try:
        fields = Path(f"/proc/{process}/stat").read_bytes().rsplit(b")", 1)[1].split()
    except (OSError, IndexError):
        return None
    return None if fields[0] in (b"Z", b"X") else int(fields[START_FIELD])


@dataclass(frozen=True)
class Mark:
    """What a mark says."""

    process: int
    start: int
    code: int | None

    def is_under_way(self) -> bool:
        """Whether its process is there: the one that was started then, as the first of its group."""
        try:
            return start_of(self.process) == self.start and os.getpgid(self.process) == self.process
        except ProcessLookupError:
            return False


def read_mark(path: Path) -> Mark | None:
    """What a mark says, and none where it is not there or says nothing."""
    try:
        first, *rest = path.read_text().split("\n")
        process, start = map(int, first.split())
        return Mark(process, start, int(rest[0]) if len(rest) > 1 and rest[0] else None)
    except (OSError, ValueError):
        return None


class Marks:
    """The folder of the marks."""

    def __init__(self, folder: Path) -> None:
        self.folder = folder
        folder.mkdir(mode=0o700, parents=True, exist_ok=True)

    def path(self, task: int, run: int, attempt: int) -> Path:
        return self.folder / f"{task}.{run}.{attempt}"

    def each(self) -> list[tuple[int, int, int]]:
        """The task, the run and the attempt of each mark."""
        names = [name.split(".") for name in os.listdir(self.folder)]
        return sorted((int(words[0]), int(words[1]), int(words[2])) for words in names
                      if len(words) == 3 and all(word.isdigit() for word in words))

    def attempts(self) -> dict[tuple[int, int], int]:
        """The last attempt of each run that has one."""
        return {(task, run): attempt for task, run, attempt in self.each()}

    def forget(self, task: int, run: int, attempts: int) -> None:
        """Takes away the marks of a run that has ended."""
        for attempt in range(1, attempts + 1):
            self.path(task, run, attempt).unlink(missing_ok=True)
