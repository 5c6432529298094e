"""The service: it sleeps until something is due, has ended or is asked, and makes a turn of all that has come."""

import os
import time
import traceback
from collections.abc import Callable

from sched_jobs.attempts import Run
from sched_jobs.basics import SECOND, Fault, tell
from sched_jobs.service.alarms import Alarms
from sched_jobs.service.beginning import Stand
from sched_jobs.service.decisions import still_wanted, take_back, wish
from sched_jobs.service.due import Due
from sched_jobs.service.loop import Loop
from sched_jobs.service.metrics import Metrics
from sched_jobs.service.requests import Outcome, Refused, outcome_of
from sched_jobs.service.runs import Runs
from sched_jobs.service.sockets import Server
from sched_jobs.service.turns import Turn
from sched_jobs.store.entries import Ended
from sched_jobs.store.files import Unwritten

# The clocks are looked at this often, and so is what can't be written.
LONGEST_SLEEP_S = 5.0
SECONDS_HELD = 1
TOGETHER = SECOND // 10
Reply = Callable[[object], None]


class Daemon:
    """The service, from where it stands."""

    def __init__(self, stand: Stand, workers: int, signals: int, loop: Loop, alarms: Alarms, metrics: Metrics) -> None:
        self.stand, self.folder, self.book, self.clocks, self.store = stand, stand.folder, stand.book, stand.clocks, stand.store
        self.workers, self.signals, self.loop, self.alarms, self.metrics = workers, signals, loop, alarms, metrics
        self.served_since = self.clocks.wall()
        self.runs, self.due = Runs(self.book, self.clocks, stand.marks, loop), Due(self.book)
        self.attempts = self.runs.attempts
        self.asked: list[tuple[object, Reply]] = []
        self.leaving: str | None = None
        self.left_at, self.held_until, self.is_anew = 0, 0.0, True
        self.book.listener = self.note_end
        loop.watch(signals, self.obey_signals)
        loop.watch(stand.engine.output, stand.engine.lost)
        loop.watch(stand.engine.told, stand.engine.hear)

    # ---- from the begin to the end

    def serve(self) -> None:
        """Serves until it is to stop, and what runs has ended or is left."""
        self.runs.take_up_all(self.stand.was_rebooted)
        self.look_at_all()
        server = Server(self.folder / "socket", self.loop.watch, self.loop.unwatch, lambda asked, reply: self.asked.append((asked, reply)))
        tell(f"sched-jobs: serves {self.folder}: {len(self.book.entries)} jobs, {self.book.lines} lines")
        self.alarms.ready()
        while not self.is_over():
            self.loop.sleep(self.seconds_to_sleep())
            self.attempts.end_due()
            self.attempts.try_again(is_begun=self.leaving is None)
            self.turn()
            self.metrics.write({"": self})
        server.close()
        self.metrics.write({"": self}, is_last=True)
        self.store.close()
        self.stand.engine.close()

    def is_over(self) -> bool:
        if self.leaving is None or self.asked or self.runs.ended:
            return False
        return self.leaving == "leave" or not self.attempts.processes()

    def look_at_all(self) -> None:
        """Looks at each job once."""
        self.book.dirty = set(self.book.entries)
        for entry in self.book.entries.values():
            self.due.note(entry)
        self.turn()

    # ---- what is done together

    def turn(self) -> None:
        """Makes a turn of all that has come, and another one where that leads to more."""
        if time.monotonic() < self.held_until:
            return
        self.is_anew |= self.clocks.was_set()
        try:
            while self.is_something():
                self.one_turn()
        except Unwritten as fault:
            tell(f"sched-jobs: {fault}")
            self.held_until = time.monotonic() + SECONDS_HELD

    def is_something(self) -> bool:
        return bool(self.is_anew or self.asked or self.runs.ended or self.book.dirty or self.starts(self.clocks.now()))

    def starts(self, now: int) -> int:
        """How many runs are to be begun: so many as are due, and have a worker."""
        if self.leaving is not None:
            return 0
        return self.due.count(now, self.workers - len(self.book.running) + len(self.runs.ended))

    def one_turn(self) -> None:
        now = max(self.clocks.now(), self.book.moment)
        turn, ended, asked = Turn(self.book, now), self.runs.ended, self.asked
        if self.is_anew:
            take_back(turn, self.book, self.clocks, now)
        for run in ended:
            turn.say(*self.runs.end_of(run))
        outcomes = [(self.outcome(turn, request, reply), reply) for request, reply in asked]
        looked_at = self.wish(turn, now + 1)
        workers = sorted(set(range(self.workers)) - self.book.running.keys() | {run.worker for run in ended})
        for worker in workers[:self.starts(now)]:
            turn.say(f"start {worker}")
        self.runs.ended, self.asked = [], []
        try:
            turn.commit(self.store, self.stand.engine)
        except Unwritten as fault:
            self.runs.ended, self.book.dirty = ended, self.book.dirty | looked_at
            for outcome, reply in outcomes:
                if outcome is not None:
                    reply({"error": str(fault)})
            raise
        self.is_anew = False
        self.behind(ended, outcomes)

    def behind(self, ended: list[Run], outcomes: list[tuple[Outcome | None, Reply]]) -> None:
        """Does what had to wait until all was durable."""
        for run in ended:
            self.stand.marks.forget(run.task, run.number, run.attempt)
        changed = [self.book.entries[name] for name in self.book.dirty if name in self.book.entries]
        self.book.dirty = still_wanted(self.book, self.clocks, self.book.dirty)
        for entry in changed:
            self.due.note(entry)
        self.runs.begin_new()
        for outcome, reply in outcomes:
            if outcome is not None:
                if outcome.cancel is not None:
                    self.runs.cancel(*outcome.cancel)
                outcome.after()
                reply(outcome.reply())
        if self.store.is_full():
            self.roll()

    def roll(self) -> None:
        """Begins a segment, where the one before has something."""
        if self.book.lines > self.store.at and not self.store.held:
            self.store = self.store.next(self.book.lines, self.book.as_json())

    def outcome(self, turn: Turn, asked: object, reply: Reply) -> Outcome | None:
        """What becomes of a request, whose records are in the turn then. One that is refused is answered at once."""
        try:
            outcome = outcome_of(self, asked)
        except (Refused, Fault) as why:
            reply({"error": str(why)})
            return None
        except Exception:  # nothing has changed yet, and one request is to stop no other
            tell(f"sched-jobs: a request was not understood: {traceback.format_exc()}")
            reply({"error": "it was not understood, as the service has told"})
            return None
        for record in outcome.records:
            turn.record(record)
        return outcome

    def wish(self, turn: Turn, call: int) -> set[str]:
        """Tells the executor what is wanted of the jobs that changed. Those of which a run ends in this turn are looked at again
        behind it."""
        names, self.book.dirty = self.book.dirty, set()
        if self.leaving is None:
            wish(turn, self.book, self.clocks, names, call)
        return names

    # ---- what comes, and what is told

    def seconds_to_sleep(self) -> float:
        """How long there is nothing to do, where nothing comes."""
        is_idle = self.leaving is None and len(self.book.running) < self.workers
        due = self.due.next() if is_idle else None
        moments = [due, *self.attempts.moments(is_begun=self.leaving is None)]
        seconds = [(moment - self.clocks.now()) / SECOND for moment in moments if moment is not None]
        held = max(0, self.held_until - time.monotonic())
        return max(held, 0, min([*seconds, LONGEST_SLEEP_S]))

    def note_end(self, ended: Ended) -> None:
        """Tells how a run ended, and has a failure seen to."""
        run = ended.run
        how = (f"failed {ended.code}" if ended.is_failed else "ok") + (", dropped" if ended.outcome == "dropped" else "")
        took, late = (ended.end - run.start) / 1e6, (run.start - run.due) / 1e6
        self.runs.tell(ended.end, f"{run.name} task {run.task} run {run.number}: {how} in {took:.1f} ms, {late:.1f} ms late")
        if ended.is_failed:
            self.alarms.run(ended)

    def obey_signals(self) -> None:
        """At the first signal it stops, and waits for what runs; at another one what runs is ended."""
        os.read(self.signals, 64)
        if self.leaving is None:
            self.leave("wait")
        elif self.clocks.now() - self.left_at >= TOGETHER:
            self.leave("end")

    def leave(self, how: str) -> None:
        """From now on nothing is begun: what runs is waited for, ended, or left to the service behind this one."""
        if self.leaving is None:
            self.left_at = self.clocks.now()
        self.leaving = how
        word = {"wait": "stopping", "end": "ending", "leave": "leaving"}[how]
        tell(f"sched-jobs: {word}: {len(self.attempts.processes())} running")
        if how == "end":
            self.attempts.end_running()
