"""What is asked of a service, and what people see of it."""

import json
import os
import time

from calendar_times import has_cron
from house import SHOWS, Checks, House, soon, stopped


def kinds(program: str) -> Checks:
    """Jobs of each kind run at their times, one after the other where a job has several runs."""
    with House(program) as house:
        yield "it serves", house.serve()
        begun = time.time()
        house.add("now", SHOWS)
        house.add("soon", SHOWS, **{"in": "300ms"})
        house.add("at", SHOWS, at=time.strftime("%H:%M:%S", time.localtime(begun + 2)))
        house.add("every", SHOWS, every="300ms", catch_up="all")
        house.add("after", "sleep 0.1; " + SHOWS, after="200ms")
        if has_cron():
            minute = house.add("cron", SHOWS, cron="* * * * *", timezone="UTC")
            yield "the next minute is told", minute["next"] // 10**9 % 60 in (0, 59) and minute["next"] > begun * 10**9
        yield "those that run once are done", soon(lambda: house.is_over("now", "soon", "at"))
        yield "each once", all(len(house.effects(name)) == 1 for name in ("now", "soon", "at"))
        yield "the others go on", soon(lambda: min(house.job(name)["runs"] for name in ("every", "after")) >= 4)
        for name in ("every", "after"):
            house.ask("cancel", name=name)
        yield "they end", soon(lambda: house.is_over("every", "after"))
        for name in ("every", "after"):
            runs = [int(run) for _, run, _ in house.effects(name)]
            yield f"{name}: a run after the other", runs == list(range(house.job(name)["runs"]))
        yield "none was begun early", all(
            int(words[0]) >= int(words[8]) for line in house.trace() if len(words := line.split()) == 9 and words[1] == "start")
        yield "it stops", stopped(house)
        yield from house.holds()


def long_runs(program: str) -> Checks:
    """Moments that pass while a run goes on are made up for as the job says."""
    with House(program) as house:
        yield "it serves", house.serve()
        for word in ("last", "all", "none"):
            house.add(word, "test -e {folder}/" + word + " || { touch {folder}/" + word + "; sleep 3; }", every="250ms", catch_up=word)
        yield "they go on", soon(lambda: all(house.job(word)["runs"] > 3 for word in ("last", "all", "none")))
        missed = {word: house.job(word)["missed"] for word in ("last", "all", "none")}
        yield f"some were left out: {missed}", missed["all"] == 0 and missed["last"] >= 8 and missed["none"] >= 9
        yield "of all none was", soon(lambda: house.job("all")["runs"] >= 14)
        dues = [int(line.split()[8]) for line in house.trace() if " start " in line and " task 1 " in line]
        yield "each is of its own moment", all(later - earlier == 250 * 10**6 for earlier, later in zip(dues, dues[1:]))
        yield "it stops", stopped(house)
        yield from house.holds()


def cancels_and_pauses(program: str) -> Checks:
    with House(program) as house:
        yield "it serves", house.serve()
        house.add("long", SHOWS + "; sleep 60")
        house.add("waits", SHOWS, **{"in": "1h"})
        house.add("beat", SHOWS, every="200ms")
        yield "it runs", soon(lambda: house.state_of("long") == "runs" and house.job("beat")["runs"] > 0)
        yield "what waits is cancelled", house.ask("cancel", name="waits")["job"]["state"] == "cancelled"
        house.ask("cancel", name="long")
        yield "what runs goes on", house.state_of("long") == "runs"
        yield "and is ended where that is wanted", "error" not in house.add("other", "sleep 60")
        soon(lambda: house.state_of("other") == "runs")
        house.ask("cancel", name="other", end=True)
        yield "ended", soon(lambda: house.state_of("other") == "cancelled") and house.job("other")["last"]["code"] == 143
        house.ask("pause", name="beat")
        yield "paused", soon(lambda: house.state_of("beat") == "paused")
        runs = house.job("beat")["runs"]
        time.sleep(0.7)
        yield "nothing runs then", house.job("beat")["runs"] == runs == len(house.effects("beat"))
        house.ask("resume", name="beat")
        yield "it goes on", soon(lambda: house.job("beat")["runs"] > runs)
        yield "what was due in between is not made up for", house.job("beat")["runs"] < runs + 3
        yield "on its grid", len({(int(line.split()[8]) // 10**6) % 200 for line in house.trace()
                                  if " start " in line and f" task {house.effects('beat')[-1][0]} " in line}) == 1
        yield "it stops, and ends what runs", house.ask("stop", how="end") is not None and house.status() == 0
        yield from house.holds()


TOML = """
[nightly]
command = ["true"]
every = "1h"

[greets]
command = ["sh", "-c", "echo hello >> greetings"]
"""


def reloads(program: str) -> Checks:
    """The jobs of a file become what it says; those of others stay."""
    with House(program) as house:
        yield "it serves", house.serve()
        house.add("mine", "true", every="1h")
        file = house.folder / "jobs.toml"
        file.write_text(TOML)
        yield "two are added", house.run("reload", "jobs.toml").stdout == "2 added, 0 changed, 0 kept, 0 cancelled\n"
        yield "they run from here", soon(lambda: house.file("greetings") == ["hello"]) and soon(lambda: house.is_over("greets"))
        task = house.job("nightly")["task"]
        yield "again it is as it is", house.run("reload", "jobs.toml").stdout == "0 added, 0 changed, 2 kept, 0 cancelled\n"
        file.write_text(TOML.replace('"true"', '"false"'))
        yield "a command changes", house.run("reload", "jobs.toml").stdout == "0 added, 1 changed, 1 kept, 0 cancelled\n"
        yield "the task stays", house.job("nightly")["task"] == task and house.job("nightly")["table"]["command"] == ["false"]
        file.write_text(TOML.replace('"1h"', '"2h"').replace("[greets]", "[others]"))
        yield "times change", house.run("reload", "jobs.toml").stdout == "1 added, 1 changed, 0 kept, 0 cancelled\n"
        yield "the task is another", soon(lambda: house.job("nightly")["task"] not in (task, None))
        yield "in two hours", house.job("nightly")["next"] > (time.time() + 7_000) * 10**9
        file.write_text("")
        yield "what is not there any more is cancelled", "cancelled" in house.run("reload", "jobs.toml").stdout
        yield "but for others", {name: job["state"] for name, job in house.jobs().items()} == {
            "mine": "waits", "nightly": "cancelled", "greets": "done", "others": house.state_of("others")}
        yield "nothing was said twice", house.file("greetings") == ["hello", "hello"]
        yield "it stops", stopped(house)
        yield from house.holds()


def words(program: str) -> Checks:
    """What the command prints."""
    with House(program) as house:
        yield "it serves", house.serve("--at-failure", f"sh -c 'echo $SCHED_JOB $SCHED_CODE >> {house.folder}/failures'")
        how = ["--retries", "1", "--pause", "50ms", "--output", "log", "--environment", "A=b=c"]
        added = house.run("add", "bad", *how, "--", "sh", "-c", "echo $A; pwd; exit 3")
        yield f"added: {added.stdout}", added.stdout.startswith("bad: waits, next ")
        yield "it fails", soon(lambda: house.is_over("bad")) and house.job("bad")["last"]["attempts"] == 2
        written = ["==> bad task 0 run 0 attempt {} <==", "b=c", str(house.folder)]
        yield "it has written", house.file("log") == [
            *(text.format(1) for text in written), "", *(text.format(2) for text in written)]
        yield "somebody is told", soon(lambda: house.file("failures") == ["bad 3"])
        table = house.run("list", "--all").stdout.splitlines()
        yield f"list: {table}", [line.split()[:2] for line in table] == [["NAME", "STATE"], ["bad", "failed"]]
        shown = house.run("show", "bad").stdout
        wanted = ("bad: failed", "when: at once", "command: sh -c ", "last: failed 3", "attempts 2")
        yield "show", all(text in shown for text in wanted)
        status = house.run("status").stdout
        yield "status", all(text in status for text in ("jobs: 1 failed", "running: 0 of 3", "runs: 1, failed 1, missed 0"))
        log = house.run("log", "bad").stdout
        yield f"log: {log}", " bad task 0 run 0: failed 3 in " in log and len(log.splitlines()) == 1
        yield "in JSON too", json.loads(house.run("log", "--json").stdout)["code"] == 3
        metrics = house.state / "metrics.prom"
        yield "metrics", soon(lambda: 'sched_jobs_job_failed{job="bad"} 1\n' in metrics.read_text(), 20)
        yield "it stops", house.run("stop").stdout == "stopping: 0 running\n" and house.status() == 0
        yield "the metrics say so", "\nsched_jobs_up 0\n" in metrics.read_text()
        yield "they are as Prometheus reads them", is_exposition(metrics.read_text())


def is_exposition(text: str) -> bool:
    """Whether each sample stands behind the help and the type of its name."""
    known = set()
    for line in text.splitlines():
        if line.startswith("# TYPE "):
            known.add(line.split()[2])
        elif not line.startswith("# HELP "):
            name, value = line.split("{")[0].split()[0], line.rsplit(" ", 1)[1]
            float(value)
            if name not in known:
                return False
    return text.endswith("\n")


def many(program: str) -> Checks:
    """A file of a thousand jobs is taken at once, and kept."""
    with House(program) as house:
        yield "it serves", house.serve()
        tables = {f"job-{number}": {"command": ["true"], "every": "1h", "jitter": "1h"} for number in range(1_000)}
        yield "all are added", house.ask("reload", file="/jobs.toml", tables=tables)["added"] == 1_000
        yield "all wait", soon(lambda: {job["state"] for job in house.jobs().values()} == {"waits"})
        house.kill()
        begun = time.monotonic()
        yield "they are there again", house.serve() and len(house.jobs()) == 1_000
        print(f"note: 1,000 jobs were there again within {time.monotonic() - begun:.1f} s, a load of {os.getloadavg()[0]:.0f}")
        yield "it stops", stopped(house)
        yield from house.holds()


TESTS = [kinds, long_runs, cancels_and_pauses, reloads, words, many]
