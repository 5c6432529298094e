"""The commands that change something: each asks the service, and tells what it answers."""

import argparse
import json
import os
from collections.abc import Callable

from sched_jobs.basics import SECOND, Fault, Json
from sched_jobs.client import ask
from sched_jobs.jobs import read_source, tables_of
from sched_jobs.looking import told_job
from sched_jobs.service.orders import SPOKEN, order_of

PATHS = ("directory", "output")
# The options of `add` that a table has as they are.
WORDS = ("in", "at", "every", "after", "cron", "timezone", "retries", "on_failure", "on_crash", "on_cancel", "catch_up", "jitter",
         "directory", "output")


def with_whole_paths(table: Json) -> Json:
    """A table whose paths are taken from here, and not from where the service is."""
    whole = {key: os.path.abspath(table[key]) for key in PATHS if isinstance(table.get(key), str) and table[key]}
    return {"directory": os.getcwd()} | table | whole


def table_of(asked: argparse.Namespace) -> Json:
    """The table that the options of `add` say."""
    given = vars(asked)
    table = {"command": asked.command} | {word: given[word] for word in WORDS if given[word] is not None}
    if asked.timeout is not None:
        table["timeout_s"] = asked.timeout / SECOND
    if asked.pause is not None:
        table["retry_pause_s"] = asked.pause / SECOND
    if asked.environment:
        table["environment"] = dict(text.partition("=")[::2] for text in asked.environment)
    return with_whole_paths(table)


def tell_answer(asked: argparse.Namespace, answer: Json, told: Callable[[Json], str]) -> int:
    print(json.dumps(answer) if asked.json else told(answer))
    return 0


def add(asked: argparse.Namespace) -> int:
    table = table_of(asked)
    order_of(asked.name, table, SPOKEN)
    return tell_answer(asked, ask(asked.state, {"do": "add", "name": asked.name, "table": table}), told_job)


def by_name(word: str) -> Callable[[argparse.Namespace], int]:
    """A command that asks one thing of a job."""
    def answer(asked: argparse.Namespace) -> int:
        request = {"do": word, "name": asked.name} | ({"end": True} if getattr(asked, "end", False) else {})
        return tell_answer(asked, ask(asked.state, request), told_job)
    return answer


def reload(asked: argparse.Namespace) -> int:
    """The file is read here, so that a fault has its line."""
    source = read_source(asked.file)
    tables = tables_of(source)
    for name, table in tables.items():
        order_of(name, table, source)
    whole = {name: with_whole_paths(table) for name, table in tables.items()}
    path = os.path.abspath(asked.file)
    try:
        answer = ask(asked.state, {"do": "reload", "file": path, "tables": json.loads(json.dumps(whole))})
    except TypeError as error:
        raise Fault(f"jobs: {asked.file}: a date is no value of a job") from error
    return tell_answer(asked, answer, lambda counts: ", ".join(f"{count} {word}" for word, count in counts.items()))


def stop(asked: argparse.Namespace) -> int:
    answer = ask(asked.state, {"do": "stop", "how": asked.how})
    return tell_answer(asked, answer, lambda told: f"stopping: {told['running']} running")


cancel, pause, resume = by_name("cancel"), by_name("pause"), by_name("resume")
