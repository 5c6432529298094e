"""Bad input: what is wrong is told, and nothing is done."""

import json
import os

from house import Checks, House, stopped
from sched_jobs.basics import Fault
from sched_jobs.cron import croniter
from sched_jobs.service.orders import order_of

GOOD = {"command": ["true"]}
# The keys of a table beside a command, and what its fault begins with.
BAD = [
    ({"command": []}, "BadCommand"), ({"command": "true"}, "BadCommand"), ({"command": ["a\0"]}, "BadCommand"),
    ({"nothing": 1}, "UnknownKey"),
    ({"timeout_s": 0}, "BadTimeout"), ({"timeout_s": "1"}, "BadTimeout"), ({"retries": -1}, "BadRetries"),
    ({"retries": 1_001}, "BadRetries"),
    ({"retry_pause_s": -1}, "BadRetryPause"), ({"on_failure": "x"}, "BadOnFailure"), ({"on_crash": "x"}, "BadOnCrash"),
    ({"on_cancel": 1}, "BadOnCancel"), ({"catch_up": "some"}, "BadCatchUp"), ({"jitter": "5"}, "BadJitter"),
    ({"in": "5"}, "BadIn"),
    ({"in": 5}, "BadIn"), ({"every": "0s"}, "BadEvery"), ({"after": "0ms"}, "BadAfter"), ({"at": "25:00"}, "BadAt"),
    ({"at": 3}, "BadAt"),
    ({"at": "2026-02-30 10:00"}, "BadAt"), ({"every": "1s", "in": "1s"}, "TwoTimes"),
    ({"at": "10:00", "timezone": "Mars/Base"}, "BadTimezone"),
    ({"at": "10:00", "timezone": "../../etc/passwd"}, "BadTimezone"), ({"every": "1s", "timezone": "UTC"}, "BadTimezone"),
    ({"output": ""}, "BadOutput"), ({"environment": {"A=B": "x"}}, "BadEnvironment"), ({"directory": 1}, "BadDirectory"),
]
NAMES = ["", ".", "-a", "a b", "a/b", "x" * 65, "a\n", 'a"', "\u00e9", 5, None]


def tables(_: str) -> Checks:
    for keys, fault in BAD + ([({"cron": "* * * *"}, "BadCron"), ({"cron": "0 0 31 2 *"}, "BadCron")] if croniter else []):
        try:
            order_of("a", GOOD | keys)
            yield f"{keys} is refused", False
        except Fault as error:
            yield f"{keys} is refused: {error}", str(error).startswith(f"{fault} 'a'")
    for name in NAMES:
        try:
            order_of(name, GOOD)
            yield f"{name!r} is no name", False
        except Fault as error:
            yield f"{name!r} is no name: {error}", str(error).startswith("BadName")


def requests(program: str) -> Checks:
    """What is no request is answered so, and the service serves on."""
    with House(program) as house:
        yield "it serves", house.serve()
        house.add("a", "true", every="1h")
        for what, words, why in [
            ("nothing", {}, "a request is wanted"), ("add", {"name": "a", "table": GOOD}, "Known 'a'"),
            ("add", {"name": "b"}, "WrongType 'b'"),
            ("add", {"name": ["b"], "table": GOOD}, "BadName"),
            ("add", {"name": "b", "table": GOOD | {"at": "2020-01-01 10:00"}}, "BadAt 'b'"),
            ("cancel", {"name": "b"}, "UnknownName 'b'"), ("cancel", {"name": []}, "UnknownName"), ("pause", {}, "UnknownName"),
            ("resume", {"name": "a"}, "NotPaused 'a'"), ("stop", {"how": "x"}, "how is"),
            ("reload", {"file": "x", "tables": {}}, "a file"),
            ("reload", {"file": "/x", "tables": {"c": GOOD, "a": GOOD}}, "Known 'a'"),
            ("reload", {"file": "/x", "tables": {"c": 1}}, "WrongType 'c'"),
        ]:
            told = house.refusal(what, **words)
            yield f"{what} {words}: {told}", told.startswith(why)
        told = house.refusal("add", name="b", table=GOOD | {"output": str(house.state / "new")})
        yield f"no job writes among the service's files: {told}", told.startswith("BadOutput 'b'")
        yield "nothing was added", list(house.jobs()) == ["a"]
        house.ask("cancel", name="a")
        yield "what is over is told so", house.refusal("cancel", name="a") == "Over 'a': it is over: cancelled"
        yield "it stops", stopped(house)


def command_lines(program: str) -> Checks:
    """The command tells a fault in a line, with status 1, and 2 for one of the command line."""
    with House(program) as house:
        ran = house.run("list")
        yield "no service", (ran.returncode, ran.stderr) == (1, f"sched-jobs: no service serves {house.state}\n")
        yield "it serves", house.serve()
        second = house.run("serve", "--sched", program)
        yield "a second one does not", (second.returncode, second.stderr) == (1, f"sched-jobs: {house.state} is in use\n")
        for words, status, text in [
            (["add", "a", "--every", "5", "--", "true"], 1, "sched-jobs: BadEvery 'a': a span is wanted"),
            (["add", "a"], 2, "usage: "), (["add", "a", "--every", "1s", "--in", "1s", "--", "true"], 2, "usage: "),
            ([], 2, "usage: "),
            (["add", "a", "--timeout", "x", "--", "true"], 2, "usage: "), (["show", "a"], 1, "sched-jobs: UnknownName 'a'"),
            (["reload", "none.toml"], 1, "sched-jobs: jobs: 'none.toml' not read"), (["serve", "--workers", "65"], 2, "usage: "),
            (["serve", "--state", "told"], 1, "sched-jobs: "),
            (["serve", "--state", "x", "--sched", "/no/such"], 1, "sched-jobs: program: '/no/such' not found"),
        ]:
            ran = house.run(*words)
            yield f"{words}: {ran.stderr[:60]!r}", ran.returncode == status and ran.stderr.startswith(text) and not ran.stdout
        (house.folder / "jobs.toml").write_text('[a]\ncommand = ["true"]\n\n[b]\nevery = "5"\ncommand = ["true"]\n')
        ran = house.run("reload", "jobs.toml")
        yield "a fault of a file has its line", ran.stderr == (
            "sched-jobs: jobs: jobs.toml:5: BadEvery 'b': a span is wanted, as 90s, 5m, 1h30m or 250ms\n")
        (house.folder / "jobs.toml").write_text('[a]\ncommand = ["true"]\nin = 2026-01-01\n')
        yield "a date is no span", "BadIn 'a'" in house.run("reload", "jobs.toml").stderr
        yield "nothing was added", json.loads(house.run("list", "--json").stdout) == {"jobs": []}
        yield "it stops", stopped(house)


def wrong_engines(program: str) -> Checks:
    """A program that is none, one that says nothing, and a journal that is none of the records'."""
    with House(program) as house:
        for text, told in [
            ("exit 3", "ended too early, with status 3"), ("kill -9 $$", "ended too early, by signal 9"),
            ("echo sched: journal not read >&2; exit 1", "with status 1: sched: journal not read"),
        ]:
            engine = house.folder / "engine"
            engine.write_text(f"#!/bin/sh\n{text}\n")
            engine.chmod(0o755)
            ran = house.run("serve", "--sched", str(engine))
            yield f"{text}: {ran.stderr}", ran.returncode == 1 and told in ran.stderr and len(ran.stderr.splitlines()) == 1
        yield "it serves", house.serve()
        house.add("a", "true", every="1h")
        yield "it stops", stopped(house)
        journal = house.state / "journal"
        if (journal / "lines").exists():
            os.rename(journal, house.state / "other")
            ran = house.run("serve", "--sched", str(house.folder / "engine"))
            house.serve()
            yield "a journal that lacks lines is told", house.status() == 1 and "the journal has 0 lines" in house.told()
            os.rename(house.state / "journal", house.folder / "gone")
            os.rename(house.state / "other", journal)
            yield "with its own it serves again", house.serve() and list(house.jobs()) == ["a"]


TESTS = [tables, requests, command_lines, wrong_engines]
