"""A service that is killed: at each of its steps, and at random. Each job that was answered is there, none is begun twice, and each
ends as it would have ended."""

import os
import random
import signal
import time

from house import SHOWS, Checks, House, soon, stopped
from sched_jobs.basics import Fault
from sched_jobs.service.marks import read_mark
from sched_jobs.store.segments import file_of, segments_of

# Where a service is killed: a call that is one of its steps, and a code that runs there in its place. `call()` is the step.
WHOLE, HALF = "call()", "half()"
STEPS = {
    "before the records": ("sched_jobs.store.segments", "Store", "keep", "kill(); call()"),
    "within the records": ("sched_jobs.store.files", "Appended", "append", "half(); kill()"),
    "behind the records": ("sched_jobs.store.segments", "Store", "keep", "call(); kill()"),
    "behind the answers": ("sched_jobs.service.engine", "Engine", "exchange", "call(); kill()"),
    "behind the trace": ("sched_jobs.store.segments", "Store", "add_trace", "call(); kill()"),
    "before a process": ("sched_jobs.service.attempt_processes", "MarkedProcess", "__init__", "kill(); call()"),
    "behind a process": ("sched_jobs.service.attempt_processes", "MarkedProcess", "__init__", "call(); kill()"),
    "behind an end": ("sched_jobs.service.attempt_processes", "MarkedProcess", "end", "found = call(); kill()"),
    "before a mark is taken away": ("sched_jobs.service.marks", "Marks", "forget", "kill(); call()"),
    "behind a mark is taken away": ("sched_jobs.service.marks", "Marks", "forget", "call(); kill()"),
    "before an answer": ("sched_jobs.service.sockets", "Connection", "answer", "kill(); call()"),
    "as a segment begins": ("sched_jobs.store.segments", "Store", "forget", "kill(); call()"),
}
# The driver: the step at its so-manyth time is the last thing that the service does.
DRIVER = """
import importlib, os, signal
def kill():
    os.kill(os.getpid(), signal.SIGKILL)
owner = getattr(importlib.import_module({module!r}), {owner!r})
plain, left = getattr(owner, {name!r}), [{times}]
def step(self, *words, **keys):
    call = lambda: plain(self, *words, **keys)
    half = lambda: plain(self, words[0][:len(words[0]) // 2])
    left[0] -= 1
    if left[0]:
        return call()
    {code}
setattr(owner, {name!r}, step)
"""


def driver_of(step: str, times: int) -> str:
    module, owner, name, code = STEPS[step]
    return DRIVER.format(module=module, owner=owner, name=name, code=code, times=times)


def add_some(house: House, names: list[str]) -> set[str]:
    """Adds jobs that show that they were begun, and answers which were answered."""
    answered = set()
    for name in names:
        try:
            house.add(name, SHOWS, **({"in": "100ms"} if name.startswith("later") else {}))
            answered.add(name)
        except Fault:
            pass
    return answered


def killed_at(program: str, step: str, times: int) -> Checks:
    """A service that is killed at its so-manyth such step, while jobs are added and run, and one behind it."""
    names = [f"{kind}-{number}" for number in range(3) for kind in ("now", "later")]
    with House(program) as house:
        house.serve(driver=driver_of(step, times))
        answered = add_some(house, names)
        was_killed = soon(lambda: house.served.poll() is not None, 1.0)
        house.kill()
        yield "the next one serves", house.serve() and house.answers()
        what = f"{step}, {times}: " + ("" if was_killed else "not met: ")
        yield f"{what}what was answered is there", answered <= house.jobs().keys()
        yield f"{what}all comes to its end", soon(lambda: house.is_over(*house.jobs()))
        yield f"{what}each is done", {job["state"] for job in house.jobs().values()} <= {"done"}
        yield f"{what}each was begun once", all(len(house.effects(name)) == 1 for name in house.jobs())
        yield f"{what}nothing else was begun", {line.split()[0] for line in house.file("effects")} == house.jobs().keys()
        yield "it stops", stopped(house)
        yield from house.holds()


def at_each_step(program: str, times: tuple[int, ...] = (1, 2, 4, 7)) -> Checks:
    for step in STEPS:
        for count in times:
            yield from killed_at(program, step, count)


def at_each_step_once(program: str) -> Checks:
    yield from at_each_step(program, (2,))


def kill_somebody(house: House, chance: random.Random) -> None:
    """Kills the service, most often, or else its executor first, which ends it too."""
    if chance.random() < 0.3:
        os.kill(house.executor(), signal.SIGKILL)
        time.sleep(chance.random() * 0.1)
    house.kill()


def at_random(program: str, kills: int = 40) -> Checks:
    """Killed at random while jobs of all kinds come, run and are cancelled."""
    chance = random.Random(5)
    with House(program, workers=4) as house:
        answered: set[str] = set()
        house.serve()
        house.add("beat", SHOWS, every="150ms", catch_up="all")
        house.add("pulse", SHOWS, after="100ms")
        for number in range(kills):
            begun = time.monotonic()
            answered |= add_some(house, [f"{kind}-{number}-{more}" for more in range(2) for kind in ("now", "later")])
            time.sleep(max(0, chance.random() * 0.4 - (time.monotonic() - begun)))
            kill_somebody(house, chance)
            yield "the next one serves", house.serve() and house.answers()
        yield "what was answered is there", answered <= house.jobs().keys()
        once = [name for name in house.jobs() if "-" in name]
        yield "all comes to its end", soon(lambda: house.is_over(*once))
        yield "each is done", {house.jobs()[name]["state"] for name in once} == {"done"}
        yield "each was begun once", all(len(house.effects(name)) == 1 for name in once)
        for name in ("beat", "pulse"):
            house.ask("cancel", name=name)
        soon(lambda: house.is_over("beat", "pulse"))
        beats = house.effects("beat")
        yield "runs of a period follow one another", [int(run) for _, run, _ in beats] == sorted(int(run) for _, run, _ in beats)
        yield "none of them is left out", len(beats) == house.job("beat")["runs"] and house.job("beat")["missed"] == 0
        yield "and those with a pause do", len(house.effects("pulse")) == house.job("pulse")["runs"]
        yield "it stops", stopped(house)
        yield from house.holds()


def cut_power(house: House, chance: random.Random) -> None:
    """Ends all at once, and loses what was not synced: ends of the trace and of notes on ends, and marks."""
    os.kill(house.executor(), signal.SIGKILL)
    house.kill()
    for mark in (house.state / "runs").iterdir():
        found = read_mark(mark)
        if found is not None and found.is_under_way():
            os.killpg(found.process, signal.SIGKILL)
        if chance.random() < 0.5:
            mark.unlink()
        elif chance.random() < 0.5:
            mark.write_bytes(b"")
    at = segments_of(house.state)[-1]
    trace = file_of(house.state, "trace", at)
    os.truncate(trace, chance.randrange(trace.stat().st_size + 1))
    records = file_of(house.state, "records", at)
    kept = records.read_bytes().splitlines(keepends=True)
    while kept and b'"code"' in kept[-1] and chance.random() < 0.7:
        kept.pop()
    records.write_bytes(b"".join(kept))
    (house.state / "boot").write_text("another\n")


def power_cuts(program: str, cuts: int = 12) -> Checks:
    """The machine ends again and again: no job is lost, nothing is begun twice, and what is not known is told so."""
    chance = random.Random(7)
    with House(program, workers=4) as house:
        answered: set[str] = set()
        house.serve()
        house.add("beat", SHOWS, every="150ms")
        for number in range(cuts):
            answered |= add_some(house, [f"{kind}-{number}-{more}" for more in range(3) for kind in ("now", "later")])
            time.sleep(chance.random() * 0.4)
            cut_power(house, chance)
            yield "the next one serves", house.serve() and house.answers()
        yield "what was answered is there", answered <= house.jobs().keys()
        once = [name for name in house.jobs() if "-" in name]
        yield "all comes to its end", soon(lambda: house.is_over(*once))
        jobs = house.jobs()
        known = {name for name in once if jobs[name]["last"]["why"] == "ran"}
        yield "what is known is done", all(jobs[name]["state"] == "done" for name in known)
        yield "the rest is told as not seen", all(jobs[name]["last"] | {"start": 0, "end": 0} == {
            "start": 0, "end": 0, "code": 125, "why": "lost", "attempts": 1} for name in set(once) - known)
        yield "each of them was begun once at most", all(len(house.effects(name)) <= 1 for name in once)
        yield "each that is done was", all(len(house.effects(name)) == 1 for name in known)
        yield "the period goes on", soon(lambda: house.job("beat")["runs"] > cuts)
        yield "it stops", stopped(house)
        yield from house.holds()


def power_cuts_a_few(program: str) -> Checks:
    yield from power_cuts(program, 4)


def at_random_a_little(program: str) -> Checks:
    yield from at_random(program, 6)
