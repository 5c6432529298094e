"""A wall clock that is set while a service serves, and between two: calendar times go by what it shows, spans do not."""

import time

from calendar_times import has_cron
from house import SHOWS, Checks, House, soon, stopped

SECOND, HOUR = 10**9, 3_600 * 10**9
# The wall clock shows so many seconds more than it does, as a file says at each look.
DRIVER = """
import time
from pathlib import Path
plain = time.time_ns
def wall():
    try:
        return plain() + int(float(Path("ahead").read_text()) * 10**9)
    except (OSError, ValueError):
        return plain()
time.time_ns = wall
import sched_jobs.service.clocks as clocks
clocks.Clocks.__init__.__defaults__ = (wall, *clocks.Clocks.__init__.__defaults__[1:])
"""
QUICK = DRIVER + """
import sched_jobs.service.daemon as daemon
daemon.LONGEST_SLEEP_S = 0.2
"""


def set_ahead(house: House, seconds: float) -> None:
    (house.folder / "new").write_text(str(seconds))
    (house.folder / "new").rename(house.folder / "ahead")


def shown(moment: float) -> str:
    return time.strftime("%Y-%m-%d %H:%M:%S", time.localtime(moment))


def set_forward(program: str) -> Checks:
    """What it is set over was missed: it is made up for as the job says. Spans are as long as they were."""
    with House(program) as house:
        yield "it serves", house.serve(driver=QUICK)
        at = shown(time.time() + 1_800)
        house.add("runs", SHOWS, at=at)
        house.add("left-out", SHOWS, at=at, catch_up="none")
        house.add("span", SHOWS, **{"in": "1h"})
        house.add("later", SHOWS, at=shown(time.time() + 7_200))
        if has_cron():
            house.add("hourly", SHOWS, cron="0 * * * *")
            house.add("hourly-none", SHOWS, cron="0 * * * *", catch_up="none")
        due = house.job("later")["next"]
        set_ahead(house, 3_600)
        yield "one runs", soon(lambda: house.is_over("runs")) and house.state_of("runs") == "done"
        yield "one is left out", soon(lambda: house.state_of("left-out") == "missed") and not house.effects("left-out")
        yield "a span is not over", house.state_of("span") == "waits"
        yield "a time stays", soon(lambda: abs(house.job("later")["next"] - due) < SECOND)
        if has_cron():
            yield "the hour is made up for", soon(lambda: house.job("hourly")["runs"] == 1)
            yield "or not", house.job("hourly-none")["runs"] == 0 and house.job("hourly-none")["missed"] == 1
            yield "both wait for the next", all(soon(lambda: house.state_of(name) == "waits") for name in ("hourly", "hourly-none"))
        yield "it stops", stopped(house)
        yield from house.holds()


def set_back(program: str) -> Checks:
    """What has run does not run again, and what waits, waits for its time."""
    with House(program) as house:
        set_ahead(house, 3_600)
        yield "it serves", house.serve(driver=QUICK)
        house.add("at", SHOWS, at=shown(time.time() + 3_600 + 1.5))
        house.add("span", SHOWS, **{"in": "3s"})
        at = house.add("later", SHOWS, at=shown(time.time() + 7_200))["next"]
        yield "one has run", soon(lambda: house.is_over("at"))
        set_ahead(house, 0)
        yield "a span is as long as it was", soon(lambda: house.is_over("span"), 20)
        yield "a time stays", soon(lambda: abs(house.job("later")["next"] - at) < SECOND)
        yield "what has run does not run again", len(house.effects("at")) == 1
        now = time.time()
        house.kill()
        yield "the next one serves", house.serve(driver=QUICK)
        yield "a time stays there too", soon(lambda: abs(house.job("later")["next"] - at) < SECOND)
        house.add("new", SHOWS, **{"in": "300ms"})
        yield "spans go on", soon(lambda: house.is_over("new"), 20) and time.time() - now < 60
        moments = [int(line.split()[0]) for line in house.trace() if line != "?"]
        yield "the service's moments never go back", moments == sorted(moments)
        yield "it stops", stopped(house)
        yield from house.holds()


def away(program: str) -> Checks:
    """Nobody was there for three hours: what was missed is made up for as the jobs say."""
    with House(program) as house:
        yield "it serves", house.serve(driver=QUICK)
        for word in ("last", "all", "none"):
            house.add(f"every-{word}", SHOWS, every="1h", catch_up=word)
            house.add(f"once-{word}", SHOWS, catch_up=word, **{"in": "1h"})
            if has_cron():
                house.add(f"cron-{word}", SHOWS, cron="30 * * * *", catch_up=word)
        house.add("after", SHOWS, after="1h")
        house.kill()
        set_ahead(house, 3 * 3_600 + 60)
        yield "the next one serves", house.serve(driver=QUICK)
        wanted = {"every-last": 1, "every-all": 3, "every-none": 0, "once-last": 1, "once-all": 1, "once-none": 0, "after": 1}
        if has_cron():
            wanted |= {"cron-last": 1, "cron-all": 3, "cron-none": 0}
        yield "they run", soon(lambda: {name: house.job(name)["runs"] for name in wanted} == wanted)
        time.sleep(1)
        found = {name: len(house.effects(name)) for name in wanted}
        yield f"as often as they say: {found}", found == wanted
        missed = {name: house.job(name)["missed"] for name in ("every-last", "every-all", "every-none", "once-none")}
        yield f"what was missed is counted: {missed}", missed == {"every-last": 2, "every-all": 0, "every-none": 3, "once-none": 1}
        yield "one is missed", house.state_of("once-none") == "missed"
        nexts = {name: house.job(name)["next"] for name in wanted if name.startswith("every")}
        yield "the grid stays", max(nexts.values()) - min(nexts.values()) < 5 * SECOND
        yield "it stops", stopped(house)
        yield from house.holds()


def noticed(program: str) -> Checks:
    """A clock that is set is noticed within 10 s, also where nothing else comes."""
    with House(program) as house:
        yield "it serves", house.serve(driver=DRIVER)
        house.add("at", SHOWS, at=shown(time.time() + 1_800))
        time.sleep(1)
        set_ahead(house, 3_600)
        yield "in time", soon(lambda: bool(house.file("effects")), 10)
        yield "it stops", stopped(house)
        yield from house.holds()


TESTS = [set_forward, set_back, away, noticed]
