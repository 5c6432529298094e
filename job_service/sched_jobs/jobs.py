"""The jobs: a file of TOML, with a table for each name of a task."""

import math
import os
import tomllib
from collections.abc import Callable, Iterable
from dataclasses import dataclass, replace
from pathlib import Path
from typing import Any

from sched_jobs.basics import SECOND, Fault
from sched_jobs.lines import line_of

LONGEST_SPAN_S = 2**62 / SECOND
MOST_RETRIES = 1_000
USUAL_PAUSE_S = 1


@dataclass(frozen=True)
class Job:
    """A command, and how it is run. Spans are nanoseconds, texts are bytes as the system takes them, paths are whole."""

    command: list[bytes]
    timeout: int | None
    goes_on: bool
    directory: bytes | None
    environment: dict[bytes, bytes]
    output: bytes | None
    retries: int
    pause: int
    ends_on_cancel: bool

    def with_environment(self, more: dict[bytes, bytes]) -> "Job":
        """The job with more in its environment, beside what it has there itself."""
        return replace(self, environment=more | self.environment)


# ---- the value of a key, which is none where the key is left out; a ValueError where it is none of the key's


def text_of(value: object) -> bytes:
    if not isinstance(value, str) or "\0" in value:
        raise ValueError
    return value.encode()


def command_of(value: object) -> list[bytes]:
    texts = [text_of(text) for text in value] if isinstance(value, list) else []
    if not texts or not texts[0]:
        raise ValueError
    return texts


def span_of(value: object) -> int:
    """A number of seconds, whole or not, in nanoseconds."""
    if isinstance(value, bool) or not isinstance(value, int | float) or not 0 <= value <= LONGEST_SPAN_S:
        raise ValueError
    return math.ceil(value * SECOND)


def timeout_of(value: object) -> int:
    timeout = span_of(value)
    if timeout == 0:
        raise ValueError
    return timeout


def pause_of(value: object) -> int:
    return span_of(USUAL_PAUSE_S if value is None else value)


def goes_on_of(value: object) -> bool:
    """Whether a task goes on after a run that failed."""
    if value not in (None, "stop", "go_on"):
        raise ValueError
    return value == "go_on"


def ends_on_cancel_of(value: object) -> bool:
    """Whether a run that is under way is ended when its task is cancelled."""
    if value not in (None, "wait", "end"):
        raise ValueError
    return value == "end"


def path_of(value: object) -> bytes | None:
    """The whole path of one that is taken from the runner's folder."""
    if value is None:
        return None
    if value == "":
        raise ValueError
    return os.path.abspath(text_of(value))


def environment_of(value: object) -> dict[bytes, bytes]:
    if value is None:
        return {}
    if not isinstance(value, dict) or not all(name and "=" not in name for name in value):
        raise ValueError
    return {text_of(name): text_of(text) for name, text in value.items()}


def retries_of(value: object) -> int:
    if value is None:
        return 0
    if type(value) is not int or not 0 <= value <= MOST_RETRIES:
        raise ValueError
    return value


@dataclass(frozen=True)
class Key:
    """A key of a table: the field that it fills, how its value is read, and the fault of a value that is none of it."""

    field: str
    read: Callable[[object], object]
    fault: str
    wanted: str


KEYS = {
    "command": Key("command", command_of, "BadCommand", "a list of texts is wanted, a program and its arguments"),
    "timeout_s": Key("timeout", timeout_of, "BadTimeout", "timeout_s is wanted, a number of seconds above 0"),
    "on_failure": Key("goes_on", goes_on_of, "BadOnFailure", 'on_failure is "stop" or "go_on"'),
    "directory": Key("directory", path_of, "BadDirectory", "a text is wanted, the path of a folder"),
    "environment": Key("environment", environment_of, "BadEnvironment", "a table of texts is wanted, by names without '='"),
    "output": Key("output", path_of, "BadOutput", "a text is wanted, the path of a file"),
    "retries": Key("retries", retries_of, "BadRetries", f"a whole number is wanted, 0 to {MOST_RETRIES}"),
    "retry_pause_s": Key("pause", pause_of, "BadRetryPause", "a number of seconds is wanted, 0 or above"),
    "on_cancel": Key("ends_on_cancel", ends_on_cancel_of, "BadOnCancel", 'on_cancel is "wait" or "end"'),
}


@dataclass(frozen=True)
class Source:
    """A file of jobs, which is named at each fault in it. Without a path it is what was said, and has no lines."""

    path: str
    text: str

    def fault(self, text: str, *place: str) -> Fault:
        """A fault at a table, or at a key of one, with its line where that is known."""
        if not self.path:
            return Fault(text)
        line = line_of(self.text, place) if place else None
        return Fault(f"jobs: {self.path}:{f'{line}:' if line else ''} {text}")


def read_source(path: str) -> Source:
    """The file of jobs as a text."""
    try:
        content = Path(path).read_bytes()
    except OSError as error:
        raise Fault(f"jobs: {path!r} not read: {error.strerror}") from error
    try:
        return Source(path, content.decode())
    except UnicodeDecodeError as error:
        line = content.count(b"\n", 0, error.start) + 1
        raise Fault(f"jobs: {path}:{line}: Toml: byte {content[error.start]:#04x} is no UTF-8") from error


def fields_of(name: str, table: object, source: Source, keys: dict[str, Key]) -> dict[str, Any]:
    """The fields that a table of JOBS fills."""
    if not isinstance(table, dict):
        raise source.fault(f"WrongType {name!r}: a table is wanted", name)
    for word in sorted(table.keys() - keys.keys()):
        raise source.fault(f"UnknownKey {name!r} {word!r}: the keys are {', '.join(keys)}", name, word)
    fields = {}
    for word, key in keys.items():
        try:
            fields[key.field] = key.read(table.get(word))
        except ValueError as error:
            place = (name, word) if word in table else (name,)
            raise source.fault(f"{key.fault} {name!r}: {str(error) or key.wanted}", *place) from error
    return fields


def job_of(name: str, table: object, source: Source) -> Job:
    """The job of a table of JOBS."""
    return Job(**fields_of(name, table, source, KEYS))


def tables_of(source: Source) -> dict[str, Any]:
    """The tables of the file, by their names."""
    try:
        return tomllib.loads(source.text)
    except (ValueError, RecursionError) as error:
        raise source.fault(f"Toml: {error}") from error


def read_jobs(source: Source, names: set[str]) -> dict[str, Job]:
    """The jobs of the file, by their names, which are the names of the plan's tasks."""
    tables = tables_of(source)
    for name in sorted(tables.keys() - names):
        raise source.fault(f"UnknownName {name!r}: no task of the plan has it", name)
    for name in sorted(names - tables.keys()):
        raise source.fault(f"Missing {name!r}: a task of the plan has no job")
    return {name: job_of(name, table, source) for name, table in tables.items()}


def keep_outputs_from(files: Iterable[str], jobs: dict[str, Job], source: Source) -> None:
    """No job may write into these files, which are the runner's own."""
    taken = {os.path.realpath(os.fsencode(file)) for file in files}
    for name, job in jobs.items():
        if job.output is not None and os.path.realpath(job.output) in taken:
            raise source.fault(f"BadOutput {name!r}: the file is the plan, the jobs or the trace", name, "output")
