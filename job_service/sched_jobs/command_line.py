"""The command line: which words there are, and who sees to each."""

import argparse
import importlib
import shlex
from collections.abc import Callable
from pathlib import Path
from typing import TYPE_CHECKING

from sched_jobs.basics import SECOND, Fault, tell
from sched_jobs.client import usual_state
from sched_jobs.plan_run import arguments as of_a_plan
from sched_jobs.programs import worker_count
from sched_jobs.spans import read_span

if TYPE_CHECKING:
    from sched_jobs.cluster.etcd import Server

ABOUT = "Runs jobs at their times, and goes on where it stood after whatever ended it."
FAULT = 1
USUAL_WORKERS = 4
USUAL_LEASE = 3 * SECOND
MOST_LOGS = 1_000
Answer = Callable[[argparse.Namespace], int]


def by(module: str, name: str) -> Answer:
    """What a module does, which is read only where it is asked for."""
    return lambda asked: getattr(importlib.import_module(f"sched_jobs.{module}"), name)(asked)


def span(text: str) -> int:
    try:
        return read_span(text)
    except ValueError as error:
        raise argparse.ArgumentTypeError(str(error)) from error


def servers(text: str) -> "list[Server]":
    from sched_jobs.cluster.etcd import servers_of
    try:
        return servers_of(text)
    except ValueError as error:
        raise argparse.ArgumentTypeError(str(error)) from error


def count(text: str) -> int:
    if not (text.isascii() and text.isdigit() and 1 <= int(text) <= MOST_LOGS):
        raise argparse.ArgumentTypeError(f"{text!r} is not 1 to {MOST_LOGS}")
    return int(text)


def shell_words(text: str) -> list[str]:
    try:
        return shlex.split(text)
    except ValueError as error:
        raise argparse.ArgumentTypeError(f"{text!r}: {error}") from error


def parser_of(
    commands: argparse._SubParsersAction, name: str, about: str, answer: Answer, *names: str, has_json: bool = True,
) -> argparse.ArgumentParser:
    """A command, with what most of them have."""
    found = commands.add_parser(name, help=about, description=about[0].upper() + about[1:] + ".", allow_abbrev=False)
    found.set_defaults(answer=answer)
    found.add_argument("--state", metavar="DIR", type=Path, default=usual_state(), help="the folder of the service, %(default)s")
    if has_json:
        found.add_argument("--json", action="store_true", help="answer in JSON, for programs")
    for word in names:
        found.add_argument(word, metavar=word.upper())
    return found


def add_serving(commands: argparse._SubParsersAction) -> None:
    found = parser_of(commands, "serve", "serve, until it is stopped", by("service.serving", "answer"), has_json=False)
    found.add_argument("--workers", metavar="N", type=worker_count, default=USUAL_WORKERS,
                        help="how many jobs run at a time, 1 to 64; %(default)s where left out")
    found.add_argument("--sched", metavar="PROGRAM", help="the program 'sched', the built one or the PATH's where left out")
    found.add_argument("--at-failure", metavar="COMMAND", type=shell_words, default=[],
                        help="a command that is run for each run that failed, with SCHED_JOB, SCHED_CODE, .. in its environment")
    found.add_argument("--metrics", metavar="FILE", type=Path,
                       help="the file of metrics, metrics.prom in the folder where left out")
    many = found.add_argument_group("on many machines")
    many.add_argument("--cluster", metavar="SERVERS", type=servers, help="the servers of etcd: http://A:2379,http://B:2379,http://C:2379")
    many.add_argument("--name", metavar="NODE", help="the name of this node, which no other one has")
    many.add_argument("--logs", metavar="N", type=count, help="how many logs the cluster has, as its first node says; 1 where left out")
    many.add_argument("--lease", metavar="SPAN", type=span, default=USUAL_LEASE,
                      help="how long a node may be silent until it is gone; 3s where left out")


def add_adding(commands: argparse._SubParsersAction) -> None:
    found = parser_of(commands, "add", "add a job: add NAME [when] [how] -- COMMAND ..", by("asking", "add"), "name")
    when = found.add_argument_group("when, at most one; at once where left out").add_mutually_exclusive_group()
    when.add_argument("--in", metavar="SPAN", help="once, so long from now: 90s, 5m, 1h30m")
    when.add_argument("--at", metavar="WHEN", help="once, HH:MM[:SS] or YYYY-MM-DD HH:MM[:SS]")
    when.add_argument("--every", metavar="SPAN", help="again and again, from one due moment to the next")
    when.add_argument("--after", metavar="SPAN", help="again and again, so long after each end")
    when.add_argument("--cron", metavar="FIELDS", help='at calendar times: "minute hour day month weekday"')
    how = found.add_argument_group("how")
    how.add_argument("--timezone", metavar="ZONE", help="of --at and --cron, as Europe/Berlin; the machine's where left out")
    how.add_argument("--timeout", metavar="SPAN", type=span, help="an attempt is ended that runs longer")
    how.add_argument("--retries", metavar="N", type=int, help="attempts of a run after one that failed")
    how.add_argument("--pause", metavar="SPAN", type=span, help="between attempts; 1s where left out")
    how.add_argument("--on-failure", choices=("stop", "go_on"),
                     help="whether others follow a run that failed; go_on where left out")
    how.add_argument("--on-crash", choices=("fail", "retry", "ok"),
                     help="what becomes of a run whose end nobody saw; fail where left out")
    how.add_argument("--on-cancel", choices=("wait", "end"), help="whether a cancel ends a run under way; wait where left out")
    how.add_argument("--catch-up", choices=("last", "all", "none"),
                     help="what is done of runs that were missed; last where left out")
    how.add_argument("--jitter", metavar="SPAN", help="by up to so much, at random, it is due later")
    how.add_argument("--directory", metavar="DIR", help="where it starts; where you are where left out")
    how.add_argument("--output", metavar="FILE", help="what it writes is appended to this file")
    how.add_argument("--environment", metavar="NAME=TEXT", action="append", default=[],
                     help="added to its environment; may come again")
    found.add_argument("command", metavar="COMMAND", nargs="+", help="the program and its arguments, behind --")


def add_changing(commands: argparse._SubParsersAction) -> None:
    found = parser_of(commands, "cancel", "cancel a job: no other run of it begins", by("asking", "cancel"), "name")
    found.add_argument("--end", action="store_true", help="end a run that is under way too")
    parser_of(commands, "pause", "begin no run of a job until it is resumed", by("asking", "pause"), "name")
    parser_of(commands, "resume", "go on with a job that was paused", by("asking", "resume"), "name")
    parser_of(commands, "reload", "make the jobs of a file of TOML what it says now", by("asking", "reload"), "file")
    found = parser_of(commands, "stop", "stop the service, once what runs has ended", by("asking", "stop"))
    how = found.add_mutually_exclusive_group()
    how.add_argument("--end", dest="how", action="store_const", const="end", default="wait", help="end what runs")
    how.add_argument("--leave", dest="how", action="store_const", const="leave", help="leave what runs to the next service")


def add_looking(commands: argparse._SubParsersAction) -> None:
    found = parser_of(commands, "list", "list the jobs", by("looking", "show_all"))
    found.add_argument("--all", action="store_true", help="those too that are over")
    parser_of(commands, "show", "show a job", by("looking", "show"), "name")
    parser_of(commands, "status", "show how the service is", by("looking", "status"))
    found = parser_of(commands, "log", "show the runs that have ended, of a job or of all", by("looking", "log"))
    found.add_argument("name", metavar="NAME", nargs="?")
    found.add_argument("--lines", metavar="N", type=int, default=50, help="the last N; %(default)s where left out")
    about = "draw the runs of the last hour, as a picture or a page"
    found = parser_of(commands, "draw", about, by("looking", "draw"), has_json=False)
    found.add_argument("--last", metavar="SPAN", type=span, help="another span than the last hour; of a page all where left out")
    found.add_argument("--page", action="store_true",
                       help="a page of HTML that a browser shows, with zoom, in place of a picture in SVG")
    found.add_argument("--output", metavar="FILE", type=Path, help="the file, standard output where left out")


def parser() -> argparse.ArgumentParser:
    """All commands and their options."""
    found = argparse.ArgumentParser(prog="sched-jobs", description=ABOUT, allow_abbrev=False)
    commands = found.add_subparsers(required=True, metavar="COMMAND")
    add_serving(commands)
    add_adding(commands)
    add_changing(commands)
    add_looking(commands)
    about = "run a plan of sched, and end with it"
    run = commands.add_parser("run", help=about, description=of_a_plan.ABOUT, allow_abbrev=False)
    of_a_plan.add_arguments(run)
    run.set_defaults(answer=by("plan_run.command", "answer"))
    return found


def main(words: list[str] | None = None) -> int:
    asked = parser().parse_args(words)
    try:
        return asked.answer(asked)
    except (Fault, OSError) as fault:
        tell(f"sched-jobs: {fault}")
        return FAULT
    except KeyboardInterrupt:
        return FAULT
