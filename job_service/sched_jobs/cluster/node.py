"""A node: the service of jobs on one of many machines. It sleeps until something comes, and sees to each of its logs."""

import os
import time
import zlib
from collections.abc import Callable
from dataclasses import dataclass
from functools import partial
from pathlib import Path

from sched_jobs.basics import SECOND, Fault, Json, tell
from sched_jobs.cluster.asked import Desk, is_change, merged, parts_of
from sched_jobs.cluster.etcd import Gateway, Server, found_in, get, is_absent, put, transaction
from sched_jobs.cluster.keys import LOGS
from sched_jobs.cluster.log import Log
from sched_jobs.cluster.membership import Member, Membership, identity_of
from sched_jobs.service import views
from sched_jobs.service.alarms import Alarms
from sched_jobs.service.beginning import taken
from sched_jobs.service.clocks import Clocks
from sched_jobs.service.loop import Loop
from sched_jobs.service.marks import Marks, boot
from sched_jobs.service.metrics import Metrics
from sched_jobs.service.requests import Refused, word_of
from sched_jobs.service.sockets import Server as Socket
from sched_jobs.store.entries import Ended
from sched_jobs.store.files import content_of, replace

LONGEST_SLEEP_S = 1.0
SECONDS_TO_BEGIN, SECONDS_TO_LEAVE = 10, 10
# So long who asks waits, beside two leases, and so long at most: who asks waits no longer.
SECONDS_TO_ANSWER, MOST_SECONDS_TO_ANSWER = 10, 100
# For so long nodes have to be the same before a leader gives way to the one whose turn it is.
SECONDS_TO_GIVE_WAY = 10
TOGETHER = SECOND // 10
Reply = Callable[[object], None]


@dataclass(frozen=True)
class Settings:
    """What a node is told at its begin."""

    name: str
    folder: Path
    program: str
    servers: list[Server]
    workers: int
    logs: int | None
    lease: int


@dataclass
class Waiting:
    """Who waits for an answer of a log, since when."""

    log: Log
    since: float
    reply: Reply


class Node:
    """The node, from where it stands."""

    def __init__(self, settings: Settings, signals: int, loop: Loop, alarms: Alarms, metrics: Metrics) -> None:
        self.name, self.folder, self.program, self.loop = settings.name, settings.folder, settings.program, loop
        self.signals, self.alarms, self.metrics = signals, alarms, metrics
        self.lock = taken(self.folder)
        self.clocks, self.served_since = Clocks(0), time.time_ns()
        identity, is_new = identity_of(self.folder)
        self.was_rebooted = is_new or content_of(self.folder / "boot").decode().strip() != boot()
        self.gateway = Gateway(loop, settings.servers, settings.lease / 3)
        self.membership = Membership(self.gateway, Member(self.name, settings.workers, identity), settings.lease, self.join, self.lose,
                                     self.change, self.refuse)
        self.workers, self.refused, self.changed_at, self.is_silent = settings.workers, list[Fault](), time.monotonic(), False
        self.leaving: str | None = None
        self.left_at, self.count, self.mark = 0, 0, os.urandom(8).hex()
        self.waiting: dict[str, Waiting] = {}
        self.patience = min(SECONDS_TO_ANSWER + 2 * settings.lease, MOST_SECONDS_TO_ANSWER)
        self.desk = Desk(self)
        self.logs = [self.log(number) for number in range(self.log_count(settings.logs))]
        self.is_boot_kept = False

    def log_count(self, wanted: int | None) -> int:
        """How many logs the cluster has, which its first node says."""
        request = transaction([is_absent(LOGS)], [put(LOGS, b"%d" % (wanted or 1))], [get(LOGS)])
        answer = self.gateway.answer("kv/txn", request, SECONDS_TO_BEGIN)
        if answer.get("succeeded"):
            return wanted or 1
        found = int(found_in(answer["responses"][0]).pairs[0].value or b"1")
        if wanted not in (None, found):
            raise Fault(f"cluster: it has {found} logs, and not {wanted}")
        return found

    def log(self, number: int) -> Log:
        return Log(self, number, self.folder / "logs" / f"{number}", Marks(self.folder / "runs" / f"{number}"))

    def log_of(self, name: object) -> Log:
        """The log whose job this is, by its name."""
        return self.logs[zlib.crc32(str(name).encode()) % len(self.logs)]

    # ---- what the logs want of their house

    @property
    def is_leaving(self) -> bool:
        return self.leaving is not None

    def attach(self, log: Log) -> None:
        """Sees to the executor of a log, and hears of its ends."""
        engine = log.replica.engine
        self.loop.watch(engine.output, engine.lost)
        self.loop.watch(engine.told, engine.hear)
        log.replica.book.listener = partial(self.note_end, log)

    def detach(self, log: Log) -> None:
        self.loop.unwatch(log.replica.engine.output)
        self.loop.unwatch(log.replica.engine.told)

    def note_end(self, log: Log, ended: Ended) -> None:
        """Tells how a run ended that was this node's, or, where this node leads, one's that is gone."""
        run = ended.run
        if run.node != self.name and (log.leading is None or run.node in self.membership.members):
            return
        how = f"failed {ended.code}" if ended.is_failed else "ok"
        took, late = (ended.end - run.start) / 1e6, (run.start - run.due) / 1e6
        log.runs.tell(self.clocks.now(), f"{run.name} log {log.number} task {run.task} run {run.number}: {how} in {took:.1f} ms, "
                      f"{late:.1f} ms late")
        if ended.is_failed:
            self.alarms.run(ended)

    # ---- membership

    def join(self) -> None:
        tell(f"sched-jobs: {self.name} is a node of the cluster, with {self.membership.me.workers} workers")

    def lose(self) -> None:
        """The lease has ended: others may have been told that this node is gone."""
        tell(f"sched-jobs: the lease of {self.name} has ended")
        self.membership.epoch = 0
        for log in self.logs:
            log.step_down("its lease has ended")
            log.mirror.begin()

    def change(self) -> None:
        self.changed_at = time.monotonic()

    def refuse(self, fault: Fault) -> None:
        self.refused.append(fault)

    # ---- from the begin to the end

    def serve(self) -> None:
        """Serves until it is to stop, and what runs has ended and is told, or is left."""
        self.loop.watch(self.signals, self.obey_signals)
        self.membership.begin()
        for log in self.logs:
            log.mirror.begin()
        server = Socket(self.folder / "socket", self.loop.watch, self.loop.unwatch, self.ask)
        tell(f"sched-jobs: {self.name} serves {self.folder}: {len(self.logs)} logs, "
             f"{sum(len(log.replica.book.entries) for log in self.logs)} jobs")
        self.alarms.ready()
        self.tick()
        while not self.is_over():
            self.loop.sleep(self.seconds_to_sleep())
            if self.refused:
                raise self.refused[0]
            self.step()
        server.close()
        self.metrics.write(self.metered(), is_last=True)
        self.leave_cluster()
        for log in self.logs:
            log.close()

    def step(self) -> None:
        for log in self.logs:
            attempts = log.runs.attempts
            attempts.end_due()
            attempts.try_again(is_begun=self.leaving is None)
            log.runs.end_strays()
            log.step()
        self.keep_boot()
        self.metrics.write(self.metered())

    def keep_boot(self) -> None:
        """Keeps which boot of the machine this is, once what was lost with the one before is told."""
        if not self.is_boot_kept and all(log.runs.has_begun and log.is_told() for log in self.logs):
            replace(self.folder / "boot", boot().encode() + b"\n")
            self.is_boot_kept = True

    def tick(self) -> None:
        """What is looked at each second."""
        self.loop.later(LONGEST_SLEEP_S, self.tick)
        self.look_at_etcd()
        for name, waiting in list(self.waiting.items()):
            if time.monotonic() - waiting.since > self.patience:
                self.answer_late(name, waiting)
        is_steady = time.monotonic() - self.changed_at > SECONDS_TO_GIVE_WAY
        for log in self.logs:
            if log.leader is None and log.mirror.is_current:
                log.see_leader()
            if is_steady and log.leading is not None and time.monotonic() - log.leading.since > SECONDS_TO_GIVE_WAY:
                log.give_way()
            log.put_snapshot()

    def look_at_etcd(self) -> None:
        """Tells once that etcd does not answer, and once that it does again."""
        is_silent = time.monotonic() - self.gateway.answered_at > self.membership.lease.seconds
        if is_silent and not self.is_silent:
            tell(f"sched-jobs: no server of etcd answers: {self.gateway.fault}")
        elif self.is_silent and not is_silent:
            tell("sched-jobs: etcd answers again")
        self.is_silent = is_silent

    def answer_late(self, name: str, waiting: Waiting) -> None:
        del self.waiting[name]
        is_unasked = waiting.log.take_back(name)
        why = f"no server of etcd answers: {self.gateway.fault}" if self.is_silent else "nobody leads the log"
        done = "nothing was done" if is_unasked else "it may be done yet, 'list' tells"
        waiting.reply({"error": f"{why}: {done}"})

    def is_over(self) -> bool:
        if self.leaving is None:
            return False
        if self.leaving == "leave":
            return True
        if any(log.runs.attempts.processes() or log.runs.strays for log in self.logs):
            return False
        is_late = self.is_silent and self.clocks.now() - self.left_at > SECONDS_TO_LEAVE * SECOND
        return is_late or all(log.is_told() for log in self.logs)

    def leave_cluster(self) -> None:
        """Ends the lease at once, so that others lead: unless what runs is left to the next service of this node."""
        if self.leaving == "leave" or not self.membership.lease.number:
            return
        left: list[bool] = []
        self.membership.lease.leave(lambda: left.append(True))
        limit = time.monotonic() + 2
        while not left and time.monotonic() < limit:
            self.loop.sleep(0.1)

    def seconds_to_sleep(self) -> float:
        """How long there is nothing to do, where nothing comes."""
        seconds = [LONGEST_SLEEP_S]
        for log in self.logs:
            if log.leading is not None and log.mirror.is_current and log.leading.draft is None:
                seconds += [(moment - log.leading.clocks.now()) / SECOND for moment in log.leading.moments()]
            seconds += [(moment - self.clocks.now()) / SECOND for moment in log.runs.moments() if moment is not None]
        return max(0.0, min(seconds))

    # ---- what is asked

    def ask(self, asked: object, reply: Reply) -> None:
        try:
            word, request = word_of(asked)
            if not is_change(word):
                reply(self.desk.answer(word, request))
                return
            parts = parts_of(self, request)
        except (Refused, Fault) as why:
            reply({"error": str(why)})
            return
        answers: list[Json] = []
        for log, part in parts:
            self.count += 1
            name = f"{self.mark}-{self.count}"
            self.waiting[name] = Waiting(log, time.monotonic(), partial(self.take_answer, name, log, answers, len(parts), reply))
            log.ask(name, part, self.waiting[name].reply)

    def take_answer(self, name: str, log: Log, answers: list[Json], count: int, reply: Reply, told: object) -> None:
        """Answers who has asked, once each log has."""
        self.waiting.pop(name, None)
        assert isinstance(told, dict)
        if "name" in told:
            told = {"job": views.of_entry(log.replica.book.entries[told["name"]], log.replica.book, log.replica.clocks)}
        answers.append(told)
        if len(answers) == count:
            reply(merged(answers))

    def metered(self) -> dict[str, "Metered"]:
        return {f'log="{log.number}"': Metered(log, self) for log in self.logs}

    # ---- its end

    def obey_signals(self) -> None:
        """At the first signal it stops, and waits for what runs; at another one what runs is ended."""
        os.read(self.signals, 64)
        if self.leaving is None:
            self.leave("wait")
        elif self.clocks.now() - self.left_at >= TOGETHER:
            self.leave("end")

    def leave(self, how: str) -> None:
        """From now on this node is given nothing: what runs is waited for, ended, or left to the service behind this one."""
        if self.leaving is None:
            self.left_at = self.clocks.now()
            self.membership.set_workers(0)
        self.leaving = how
        running = sum(len(log.runs.attempts.processes()) for log in self.logs)
        tell(f"sched-jobs: { {'wait': 'stopping', 'end': 'ending', 'leave': 'leaving'}[how]}: {running} running")
        if how == "end":
            for log in self.logs:
                log.runs.attempts.end_running()

    def abandon(self) -> None:
        """Ends the executors, and nothing else."""
        for log in getattr(self, "logs", []):
            log.replica.engine.abandon()


class Metered:
    """What the metrics see of a log."""

    def __init__(self, log: Log, node: Node) -> None:
        self.book, self.clocks, self.workers, self.served_since = log.replica.book, log.replica.clocks, node.workers, node.served_since
