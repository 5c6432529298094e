"""A cluster in trouble: jobs of all kinds run while nodes, services and servers of etcd are killed, paused and cut off at random. Then
all of it is looked at: every job ran as it says, and the log of each node is the same."""

import json
import random
import signal
import threading
import time
from collections import Counter
from collections.abc import Callable
from dataclasses import dataclass, field

from house import Checks, soon
from machines import Cluster, Machine
from sched_jobs.basics import Fault
from sched_jobs.pages.history import Bar, ended_in
from sched_jobs.store.segments import read_segment, segments_of

SHOWS = ('echo "begin $SCHED_JOB $SCHED_TASK $SCHED_RUN $SCHED_ATTEMPT $SCHED_FENCE $SCHED_NODE" >> {folder}/effects; sleep %s; '
         'echo "end $SCHED_JOB $SCHED_TASK $SCHED_RUN $SCHED_ATTEMPT $SCHED_FENCE $SCHED_NODE" >> {folder}/effects; exit %d')
SECONDS_TO_END = 120


@dataclass(frozen=True)
class Kind:
    """A kind of job: what it sleeps, its code, and its keys."""

    sleeps: float
    code: int
    keys: dict[str, object]


KINDS = {
    "now": Kind(0, 0, {}),
    "in": Kind(0, 0, {"in": "2s"}),
    "long": Kind(4, 0, {}),
    "fails": Kind(0, 3, {}),
    "again": Kind(0, 4, {"retries": 2, "retry_pause_s": 0.2}),
    "hangs": Kind(60, 0, {"timeout_s": 1}),
    "retried": Kind(3, 0, {"on_crash": "retry"}),
    "taken-as-ok": Kind(3, 0, {"on_crash": "ok"}),
    "every": Kind(0, 0, {"every": "3s"}),
    "after": Kind(0, 0, {"after": "2s"}),
    "every-all": Kind(0, 0, {"every": "4s", "catch_up": "all"}),
    "cancelled": Kind(0, 0, {"in": "1h"}),
}
PERIODIC = ("every", "after", "every-all")


@dataclass
class Story:
    """What was asked, and what became of it. A job is `sure` where its add was answered."""

    sure: set[str] = field(default_factory=set)
    unsure: set[str] = field(default_factory=set)
    failovers: list[float] = field(default_factory=list)
    troubles: Counter[str] = field(default_factory=Counter)


def kind_of(name: str) -> str:
    return name.rpartition("-")[0]


class Adding(threading.Thread):
    """Adds jobs, so many over a span, at nodes at random; periodic ones are few, and are cancelled after a while."""

    def __init__(self, cluster: Cluster, story: Story, jobs: int, seconds: float, seed: int) -> None:
        super().__init__(daemon=True)
        self.cluster, self.story, self.jobs, self.seconds, self.chance = cluster, story, jobs, seconds, random.Random(seed)

    def run(self) -> None:
        begun = time.monotonic()
        for number in range(self.jobs):
            kind = self.chance.choice(list(KINDS)) if number % 20 == 0 else self.chance.choice([k for k in KINDS if k not in PERIODIC])
            self.add(f"{kind}-{number}", KINDS[kind])
            time.sleep(max(0, begun + self.seconds * (number + 1) / self.jobs - time.monotonic()))

    def add(self, name: str, kind: Kind) -> None:
        node = self.chance.choice(self.cluster.nodes)
        try:
            node.add(name, SHOWS % (kind.sleeps, kind.code), **kind.keys)
        except Fault as fault:
            if "serves" not in str(fault) and "nothing was done" not in str(fault):
                self.story.unsure.add(name)
            return
        self.story.sure.add(name)
        if kind_of(name) == "cancelled":
            try:
                self.cluster.ask("cancel", name=name)
            except Fault:
                self.story.unsure.add(name)


class Troubles:
    """What may happen, and how it is made good."""

    def __init__(self, cluster: Cluster, story: Story, chance: random.Random) -> None:
        self.cluster, self.story, self.chance = cluster, story, chance
        self.kinds: list[Callable[[], None]] = [
            self.kill_service, self.kill_machine, self.kill_leader, self.pause_service, self.pause_leader, self.kill_server,
            self.pause_server]
        if cluster.wires is not None:
            self.kinds += [self.cut_node, self.cut_server]

    def one(self) -> None:
        trouble = self.chance.choice(self.kinds)
        self.story.troubles[trouble.__name__] += 1
        trouble()

    def spell(self) -> float:
        """How long something lasts: up to twice the lease."""
        return self.chance.random() * 2 * self.cluster.lease

    def node(self) -> Machine:
        return self.chance.choice(self.cluster.nodes)

    def kill_service(self) -> None:
        node = self.node()
        node.kill()
        time.sleep(self.spell())
        node.serve()

    def kill_machine(self) -> None:
        node = self.node()
        node.die()
        time.sleep(self.spell())
        node.serve()

    def kill_leader(self) -> None:
        leader = self.cluster.leader()
        if leader is not None:
            leader.die()
            begun = time.monotonic()
            if soon(lambda: self.cluster.leader() not in (None, leader)):
                self.story.failovers.append(time.monotonic() - begun)
            leader.serve()

    def pause_service(self) -> None:
        self.pause(self.node())

    def pause_leader(self) -> None:
        self.pause(self.cluster.leader() or self.node())

    def pause(self, node: Machine) -> None:
        node.pause()
        time.sleep(self.cluster.lease + self.spell())
        node.go_on()

    def kill_server(self) -> None:
        server = self.chance.choice(self.cluster.servers)
        server.kill()
        time.sleep(self.spell())
        server.serve()

    def pause_server(self) -> None:
        server = self.chance.choice(self.cluster.servers)
        server.signal(signal.SIGSTOP)
        time.sleep(self.spell())
        server.signal(signal.SIGCONT)

    def cut_node(self) -> None:
        node = self.node()
        node.cut()
        time.sleep(self.spell())
        node.cut(False)

    def cut_server(self) -> None:
        wire = self.chance.choice(self.cluster.peer_wires)
        self.cluster.wires.cut([wire])
        time.sleep(self.spell())
        self.cluster.wires.cut([wire], False)


def in_trouble(cluster: Cluster, jobs: int, seconds: float, seed: int) -> tuple[Story, Checks]:
    """Has troubles for so long, and gives what is to be checked then."""
    story, chance = Story(), random.Random(seed)
    adding, troubles = Adding(cluster, story, jobs, seconds, seed), Troubles(cluster, story, chance)
    limit = time.monotonic() + seconds
    adding.start()
    while time.monotonic() < limit:
        time.sleep(chance.random() * cluster.lease)
        troubles.one()
    adding.join()
    return story, checks(cluster, story)


def checks(cluster: Cluster, story: Story) -> Checks:
    """What has to hold once nobody is in trouble."""
    yield "all serve", soon(lambda: all(node.answers() for node in cluster.nodes), SECONDS_TO_END)
    for name in sorted(story.sure | story.unsure):
        if kind_of(name) in (*PERIODIC, "cancelled"):
            soon(lambda: is_cancelled(cluster, name), SECONDS_TO_END)
    yield "all jobs come to their end", soon(lambda: not cluster.ask("list")["jobs"], SECONDS_TO_END)
    yield "all nodes stand at the same group", soon(cluster.is_even, SECONDS_TO_END)
    for node in cluster.nodes:
        node.ask("stop")
    yield "all stop", all(node.served is not None and node.served.wait(SECONDS_TO_END) == 0 for node in cluster.nodes)
    effects = [line.split() for line in cluster.nodes[0].file("effects")]
    bars: list[Bar] = []
    for log in range(cluster.logs):
        yield from same_logs(cluster, log)
        whole = max(cluster.nodes, key=lambda node: len(node.trace_of(log)) - node.trace_of(log).count("?"))
        bars += ended_in(whole.state / "logs" / f"{log}")
    yield from policies(story, bars, effects)


def is_cancelled(cluster: Cluster, name: str) -> bool:
    try:
        cluster.ask("cancel", name=name)
    except Fault as fault:
        return "Over" in str(fault) or "UnknownName" in str(fault)
    return True


def same_logs(cluster: Cluster, log: int) -> Checks:
    """The nodes have the same log, and no leader wrote behind another one."""
    traces = [node.trace_of(log) for node in cluster.nodes]
    longest = max(traces, key=len)
    same = all(len(trace) == len(longest) and all(one in ("?", other) or other == "?" for one, other in zip(trace, longest))
               for trace in traces)
    yield f"log {log}: the traces are the same", same
    yield f"log {log}: the journals have the same bytes", len({node.journal_of(log) for node in cluster.nodes}) == 1
    ends = [tuple(line.split()[4:7:2]) for line in longest if line.split()[1:2] == ["finish"]]
    yield f"log {log}: no run has two ends", len(ends) == len(set(ends))
    leaders: dict[int, int] = {}
    revisions: dict[int, int] = {}
    for node in cluster.nodes:
        folder = node.state / "logs" / f"{log}"
        heads = [record for at in segments_of(folder) for record in read_segment(folder, at).records if "group" in record]
        for head in heads:
            revisions[head["group"]] = head["revision"]
            yield f"log {log}: group {head['group']} is one", leaders.setdefault(head["group"], head["leader"]) == head["leader"]
    order = [leaders[group] for group in sorted(leaders)]
    yield f"log {log}: no leader wrote behind the next one", order == sorted(order) and is_fenced(leaders, revisions)


def is_fenced(leaders: dict[int, int], revisions: dict[int, int]) -> bool:
    """Whether each group stands before the next leader made its key."""
    made = sorted(set(leaders.values()))
    following = dict(zip(made, made[1:]))
    return all(revisions[group] < following.get(leader, revisions[group] + 1) for group, leader in leaders.items())


def policies(story: Story, bars: list[Bar], effects: list[list[str]]) -> Checks:
    """Each job ran as it says."""
    begun = Counter((line[1], *line[2:6]) for line in effects if line[0] == "begin")
    yield "no attempt was begun twice", all(count == 1 for count in begun.values())
    runs: dict[tuple[str, str, str], list[list[str]]] = {}
    for line in effects:
        if line[0] == "begin":
            runs.setdefault((line[1], line[2], line[3]), []).append(line)
    ended = {(line[1], line[2], line[3]) for line in effects if line[0] == "end"}
    by_name: dict[str, list[Bar]] = {}
    for bar in bars:
        by_name.setdefault(bar.name, []).append(bar)
    for name in sorted(story.sure):
        kind, found = kind_of(name), by_name.get(name, [])
        if kind == "cancelled":
            yield f"{name}: none ran", not found
        elif kind not in PERIODIC:
            yield f"{name}: it ran once", len(found) == 1
    for name, found in by_name.items():
        kind = KINDS[kind_of(name)]
        for bar in found:
            key = (name, str(bar.task), str(bar.run))
            yield f"{name}: {bar.outcome}: as its policy says", is_as_it_says(kind, bar, runs.get(key, []), key in ended)


def is_as_it_says(kind: Kind, bar: Bar, begun: list[list[str]], has_ended: bool) -> bool:
    """Whether a run had the end that its job says, and was begun as often."""
    fences = [int(line[5]) for line in begun]
    attempts = 1 + int(str(kind.keys.get("retries", 0)))
    if "not seen" in bar.outcome:
        taken = kind.keys.get("on_crash") == "ok"
        return len(begun) <= attempts and kind.keys.get("on_crash") != "retry" and bar.is_failed == (not taken)
    if "timeout_s" in kind.keys:
        return bar.code == 124 and len(begun) == 1
    if kind.keys.get("on_crash") == "retry":
        return bar.code == 0 and has_ended and fences == sorted(fences) and len(begun) <= bar.attempts
    return bar.code == kind.code and has_ended and len(begun) == bar.attempts == (attempts if kind.code else 1)


def told(story: Story) -> str:
    return json.dumps({"jobs": len(story.sure), "unsure": len(story.unsure), "troubles": dict(story.troubles),
                       "failovers": [round(one, 1) for one in story.failovers]})
