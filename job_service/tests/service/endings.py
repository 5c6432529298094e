"""What becomes of runs that are under way where the service, their process or the machine ends."""

import os
import signal
import time
from pathlib import Path

from house import SHOWS, Checks, House, soon, stopped
from sched_jobs.service.marks import read_mark

WAITS = SHOWS + "; until test -e {folder}/go; do sleep 0.05; done; exit 3"


def mark_of(house: House, name: str) -> Path:
    """The mark of the run of a job."""
    run = house.job(name)["running"][0]
    return house.state / "runs" / f"{run['task']}.{run['run']}.1"


def is_marked(house: House, name: str) -> bool:
    return bool(house.job(name)["running"]) and read_mark(mark_of(house, name)) is not None


def while_nobody_was_there(program: str) -> Checks:
    """A process goes on without the service. Its end is seen, with its code, whether it comes before the next service or later."""
    with House(program) as house:
        yield "it serves", house.serve()
        for name in ("early", "late"):
            house.add(name, WAITS.replace("/go", f"/{name}"))
        yield "both run", soon(lambda: is_marked(house, "early") and is_marked(house, "late"))
        early = mark_of(house, "early")
        house.kill()
        (house.folder / "early").touch()
        yield "one ends", soon(lambda: read_mark(early).code == 3)
        yield "the next one serves", house.serve()
        yield "the first has ended so", soon(lambda: house.is_over("early")) and house.job("early")["last"]["code"] == 3
        yield "the other runs", house.state_of("late") == "runs"
        (house.folder / "late").touch()
        yield "it ends so", soon(lambda: house.is_over("late")) and house.job("late")["last"] | {"start": 0, "end": 0} == {
            "start": 0, "end": 0, "code": 3, "why": "ran", "attempts": 1}
        yield "each was begun once", len(house.effects("early")) == len(house.effects("late")) == 1
        yield "it stops", stopped(house)
        yield from house.holds()


def lost(program: str) -> Checks:
    """Where a process was killed too, its end is not known: its job says what becomes of it."""
    names = ("fail", "retry", "ok", "beat")
    with House(program, workers=4) as house:
        yield "it serves", house.serve()
        for word in ("fail", "retry", "ok"):
            house.add(word, WAITS, on_crash=word)
        house.add("beat", "test -e {folder}/go || sleep 60", every="300ms")
        yield "they run", soon(lambda: all(is_marked(house, name) for name in names))
        house.kill()
        for mark in (house.state / "runs").iterdir():
            os.killpg(read_mark(mark).process, signal.SIGKILL)
        (house.folder / "go").touch()
        yield "the next one serves", house.serve()
        yield "they end", soon(lambda: house.is_over("fail", "retry", "ok"))
        jobs = house.jobs()
        lasts = {name: (jobs[name]["state"], jobs[name]["last"]["code"], jobs[name]["last"]["why"]) for name in names[:3]}
        yield f"as their jobs say: {lasts}", lasts == {
            "fail": ("failed", 125, "lost"), "retry": ("failed", 3, "ran"), "ok": ("done", 125, "taken as ok")}
        yield "one was begun twice", {name: len(house.effects(name)) for name in names[:3]} == {"fail": 1, "retry": 2, "ok": 1}
        yield "the period goes on", soon(lambda: house.job("beat")["runs"] > 2)
        yield "one of its runs is told as failed", house.job("beat")["failed"] == 1
        yield "it stops", stopped(house)
        yield from house.holds()


def rebooted(program: str) -> Checks:
    """After the machine itself has ended a mark that is not there says nothing: nothing is begun that may have been begun."""
    with House(program) as house:
        yield "it serves", house.serve()
        house.add("fail", WAITS)
        house.add("retry", WAITS, on_crash="retry")
        yield "both run", soon(lambda: is_marked(house, "fail") and is_marked(house, "retry"))
        house.kill()
        for mark in (house.state / "runs").iterdir():
            os.killpg(read_mark(mark).process, signal.SIGKILL)
            mark.unlink()
        (house.state / "boot").write_text("another\n")
        (house.folder / "go").touch()
        yield "the next one serves", house.serve()
        yield "they end", soon(lambda: house.is_over("fail", "retry"))
        yield "one was begun again", (len(house.effects("fail")), len(house.effects("retry"))) == (1, 2)
        yield "as their jobs say", (house.job("fail")["last"]["code"], house.job("retry")["last"]["code"]) == (125, 3)
        yield "it stops", stopped(house)
        yield from house.holds()


def another_process(program: str) -> Checks:
    """A number that another process has by now is none of the job's: it is neither waited for nor ended."""
    with House(program) as house:
        yield "it serves", house.serve()
        house.add("a", WAITS, timeout_s=1)
        yield "it runs", soon(lambda: is_marked(house, "a"))
        mark = mark_of(house, "a")
        house.kill()
        os.killpg(read_mark(mark).process, signal.SIGKILL)
        mark.write_text(f"{os.getpid()} {read_mark(mark).start}\n")
        time.sleep(1)
        yield "the next one serves", house.serve()
        yield "its end was not seen", soon(lambda: house.is_over("a")) and house.job("a")["last"]["why"] == "lost"
        yield "it stops", stopped(house)


def timeouts(program: str) -> Checks:
    """A timeout goes on while nobody is there, and so do attempts."""
    with House(program) as house:
        yield "it serves", house.serve()
        house.add("hangs", SHOWS + "; sleep 60", timeout_s=1.5)
        house.add("stubborn", "trap '' TERM; " + SHOWS + "; sleep 60; sleep 60", timeout_s=0.5)
        house.add("again", SHOWS + "; test -e {folder}/go", retries=20, retry_pause_s=0.2)
        yield "they run", soon(lambda: all(house.effects(name) for name in ("hangs", "again")))
        yield "one is killed", soon(lambda: house.is_over("stubborn")) and house.job("stubborn")["last"]["code"] == 124
        house.kill()
        attempts = len(house.effects("again"))
        yield "the next one serves", house.serve()
        yield "one has hung", soon(lambda: house.is_over("hangs")) and house.job("hangs")["last"]["code"] in (124, 125)
        (house.folder / "go").touch()
        yield "attempts go on", soon(lambda: house.is_over("again")) and house.state_of("again") == "done"
        yield "where they were", house.job("again")["last"]["attempts"] > attempts
        yield "each was made once", len(house.effects("again")) == house.job("again")["last"]["attempts"]
        yield "it stops", stopped(house)
        yield from house.holds()


def stops(program: str) -> Checks:
    """At a stop what runs is waited for, or left to the next service; at two signals it is ended."""
    with House(program) as house:
        yield "it serves", house.serve()
        house.add("a", WAITS)
        house.add("waits", SHOWS, **{"in": "200ms"})
        yield "it runs", soon(lambda: is_marked(house, "a"))
        house.ask("stop", how="leave")
        yield "it leaves", house.status() == 0
        yield "the next one serves", house.serve() and house.state_of("a") == "runs"
        house.served.terminate()
        time.sleep(0.5)
        yield "it waits", house.served.poll() is None
        (house.folder / "go").touch()
        yield "until it has ended", house.status() == 0
        yield "the next one knows", house.serve() and house.job("a")["last"]["code"] == 3
        yield "what waited is done", soon(lambda: house.is_over("waits")) and len(house.effects("waits")) == 1
        house.add("b", "sleep 60")
        yield "another runs", soon(lambda: is_marked(house, "b"))
        house.served.terminate()
        time.sleep(0.5)
        house.served.terminate()
        yield "two signals end it", house.status() == 0
        yield "its code is known", house.serve() and house.job("b")["last"]["code"] == 143
        yield "it stops", stopped(house)
        yield from house.holds()


def stops_in_a_pause(program: str) -> Checks:
    """A run that waits for its next attempt holds up no stop, and goes on in the next service."""
    with House(program) as house:
        yield "it serves", house.serve()
        house.add("a", SHOWS + "; test -e {folder}/go", retries=3, retry_pause_s=3)
        yield "an attempt fails", soon(lambda: bool(house.effects("a")))
        time.sleep(0.3)
        begun = time.monotonic()
        yield "it stops", stopped(house)
        yield "at once", time.monotonic() - begun < 3 and len(house.effects("a")) == 1
        (house.folder / "go").touch()
        yield "the next one goes on", house.serve() and soon(lambda: house.is_over("a")) and house.state_of("a") == "done"
        yield "with the next attempt", [attempt for _, _, attempt in house.effects("a")] == ["1", "2"]
        yield "it stops again", stopped(house)
        yield from house.holds()


def engine_dies(program: str) -> Checks:
    """Where the executor is killed the service ends, and says so; what runs goes on, and so does the next service."""
    with House(program) as house:
        yield "it serves", house.serve()
        house.add("a", WAITS)
        yield "it runs", soon(lambda: is_marked(house, "a"))
        os.kill(house.executor(), signal.SIGKILL)
        yield "it ends", house.status() == 1 and "ended too early, by signal 9" in house.told()
        (house.folder / "go").touch()
        yield "the next one serves", house.serve()
        yield "the run has ended so", soon(lambda: house.is_over("a")) and house.job("a")["last"]["code"] == 3
        yield "it stops", stopped(house)
        yield from house.holds()


def environments(program: str) -> Checks:
    """The shell in front of a command leaves its words, its environment and its code as they are."""
    with House(program) as house:
        yield "it serves", house.serve()
        names = {"pid": "7", "start": "x", "HOME": "/h"}
        words = ["sh", "-c", "printf '%s|' \"$@\" > words", "sh", "a b", "", "*", "$HOME", "-n", "'"]
        house.ask("add", name="words", table={"command": words, "directory": str(house.folder), "environment": names})
        house.add("names", "echo $pid $start $HOME $SCHED_JOB $SCHED_ATTEMPT > names", environment=names)
        house.add("signalled", "kill -9 $$")
        house.add("gone", "true", directory="/no/such")
        house.ask("add", name="none", table={"command": ["/no/such"]})
        house.ask("add", name="folder", table={"command": ["/"]})
        yield "all end", soon(lambda: house.is_over("words", "names", "signalled", "gone", "none", "folder"))
        yield "words", house.file("words") == ["a b||*|$HOME|-n|'|"]
        yield "names", house.file("names") == ["7 x /h names 1"]
        codes = {name: house.job(name)["last"]["code"] for name in ("signalled", "gone", "none", "folder")}
        yield f"codes: {codes}", codes == {"signalled": 137, "gone": 126, "none": 127, "folder": 126}
        yield "it stops", stopped(house)
        yield from house.holds()


TESTS = [while_nobody_was_there, lost, rebooted, another_process, timeouts, stops, stops_in_a_pause, engine_dies, environments]
