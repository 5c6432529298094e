"""Three nodes over a server of etcd: what they do together, and what becomes of it when one is gone, away, late or alone."""

import os
import shutil
import signal
import time

from house import Checks, soon
from machines import ETCD, Cluster
from sched_jobs.cluster.etcd import is_absent, put, transaction, was_made_at
from troubles import same_logs

# What a job does that shows by a line of the file `effects` where it was begun, and by which fence.
SHOWS = 'echo "$SCHED_JOB $SCHED_TASK $SCHED_RUN $SCHED_ATTEMPT $SCHED_FENCE $SCHED_NODE" >> {folder}/effects'
# The machine's load over its processors: where it has little time, leases are longer.
SLOWNESS = max(1, min(10, round(os.getloadavg()[0] / (os.cpu_count() or 1))))
LEASE = 3 * SLOWNESS


def cluster(program: str, logs: int = 1, servers: int = 1, skews: tuple[int, ...] = (0, 5, -5)) -> Cluster:
    return Cluster(program, 3, logs, LEASE, skews, servers, is_wired=False, slowness=SLOWNESS)


def ended(house: Cluster) -> Checks:
    """What has to hold once all nodes have stopped."""
    yield "they stand at the same group", soon(house.is_even)
    for node in house.nodes:
        if node.is_serving():
            node.ask("stop")
    yield "they stop", all(node.served is None or node.served.wait(60 * SLOWNESS) == 0 for node in house.nodes)
    for log in range(house.logs):
        yield from same_logs(house, log)
    begun = house.nodes[0].file("effects")
    yield "no attempt was begun twice", len(begun) == len(set(begun))


def together(program: str) -> Checks:
    """Each node takes requests, and runs jobs; each tells the same, and a file is taken whole, over all logs."""
    with cluster(program, logs=2) as house:
        yield "they serve", house.serve()
        a, b, c = house.nodes
        for number in range(9):
            house.nodes[number % 3].add(f"j-{number}", SHOWS + "; sleep 0.5")
        yield "all is done", soon(lambda: {job["state"] for job in house.jobs().values()} == {"done"})
        lines = [line.split() for line in a.file("effects")]
        yield "each was begun once", sorted(line[0] for line in lines) == [f"j-{number}" for number in range(9)]
        yield "on all nodes", {line[5] for line in lines} == {"a", "b", "c"}
        yield "fences are of one log", len({line[4] for line in lines}) > 1 and all(int(line[4]) > 0 for line in lines)
        yield "a refusal comes from the leader", all("Known" in node.refusal("add", name="k", table={"command": ["true"], "in": "1h"})
                                                     for node in (b, c)) if a.add("k", "true", **{"in": "1h"}) else False
        yield "a job that is not there", "UnknownName" in b.refusal("cancel", name="nobody")
        tables = {f"f-{number}": {"command": ["true"], "every": "1h"} for number in range(6)}
        yield "a file", b.ask("reload", file="/jobs", tables=tables)["added"] == 6
        bad = tables | {"f-9": {"command": ["true"], "every": "never"}}
        yield "a bad one is refused", "BadEvery" in c.refusal("reload", file="/jobs", tables=bad) and "f-9" not in house.jobs()
        yield "another one", c.ask("reload", file="/jobs", tables={"f-0": tables["f-0"]})["cancelled"] == 5
        yield "a pause", c.ask("pause", name="f-0")["job"]["state"] == "paused"
        yield "a resume", b.ask("resume", name="f-0")["job"]["state"] == "waits"
        long = a.add("long", SHOWS + "; sleep 60")
        yield "one runs", soon(lambda: a.state_of("long") == "runs") and long["name"] == "long"
        yield "it is ended", b.ask("cancel", name="long", end=True) is not None and soon(lambda: b.state_of("long") == "cancelled")
        for name in ("f-0", "k"):
            a.ask("cancel", name=name)
        yield "all nodes tell the same", soon(lambda: len({str(sorted((name, job["state"], job["runs"]) for name, job in {
            job["name"]: job for job in node.ask("list", all=True)["jobs"]}.items())) for node in house.nodes}) == 1)
        yield "the status tells the nodes", a.status()["nodes"] == {"a": 3, "b": 3, "c": 3}
        yield "the history is there", "j-0" in c.run("log").stdout and "<svg" in c.run("draw").stdout
        yield from ended(house)


def gone(program: str) -> Checks:
    """The leader's machine ends: another one leads, and tells its runs as their jobs say."""
    with cluster(program) as house:
        yield "they serve", house.serve()
        leader = house.leader()
        assert leader is not None
        for number in range(3):
            for kind in ("fail", "ok", "retry"):
                leader.add(f"{kind}-{number}", SHOWS + f"; sleep {2 * LEASE}", on_crash=kind)
        yield "all run", soon(lambda: len(leader.file("effects")) == 9)
        on_it = {line.split()[0] for line in leader.file("effects") if line.split()[5] == leader.name}
        leader.die()
        begun = time.monotonic()
        yield "another one leads", soon(lambda: house.leader() not in (None, leader), 20 * SLOWNESS)
        took = time.monotonic() - begun
        print(f"note: another node led within {took:.1f} s, a lease of {LEASE} s, a load of {os.getloadavg()[0]:.0f}")
        yield "all come to their end", soon(lambda: not house.ask("list")["jobs"], 60 + 10 * LEASE)
        jobs = house.jobs()
        for name in jobs:
            kind = name.split("-")[0]
            lost = name in on_it
            wanted = {"fail": ("failed", "lost") if lost else ("done", "ran"), "ok": ("done", "taken as ok") if lost else ("done", "ran"),
                      "retry": ("done", "ran")}[kind]
            found = jobs[name]["state"], jobs[name]["last"]["why"]
            yield f"{name}, {lost}: {found}", found == wanted
        lines = [line.split() for line in house.nodes[0].file("effects")]
        again = {line[0]: [other for other in lines if other[0] == line[0]] for line in lines}
        yield "what is tried again is begun again", all(len(again[name]) == (2 if name in on_it and name.startswith("retry") else 1)
                                                        for name in jobs)
        yield "by a later fence", all(int(twice[1][4]) > int(twice[0][4]) for twice in again.values() if len(twice) == 2)
        yield "it serves again", leader.serve() and leader.answers()
        yield from ended(house)


def paused(program: str) -> Checks:
    """A leader that is paused past its lease writes nothing after, and what it ran is ended, and told once."""
    with cluster(program) as house:
        yield "they serve", house.serve()
        leader = house.leader()
        assert leader is not None
        leader.add("beat", SHOWS, every="500ms")
        leader.add("long", SHOWS + f"; sleep {6 * LEASE}; echo over >> {{folder}}/over")
        yield "one runs", soon(lambda: leader.state_of("long") == "runs")
        leader.pause()
        others = [node for node in house.nodes if node is not leader]
        yield "another one leads", soon(lambda: others[0].status()["logs"][0]["leader"] not in (None, leader.name), 20 * LEASE)
        leader.go_on()
        yield "it follows", soon(lambda: leader.status()["logs"][0]["leader"] == others[0].status()["logs"][0]["leader"])
        runs = others[0].job("beat")["runs"]
        yield "the beat goes on", soon(lambda: others[0].job("beat")["runs"] > runs)
        others[0].ask("cancel", name="beat")
        where = next(line.split()[5] for line in leader.file("effects") if line.startswith("long"))
        if where == leader.name:
            yield "its run is told as lost", soon(lambda: others[0].job("long")["last"]["why"] == "lost")
            yield "and ended", soon(lambda: not any(leader.state.glob("runs/0/*"))) and not leader.file("over")
        else:
            others[0].ask("cancel", name="long", end=True)
        yield "all is over", soon(lambda: not others[0].ask("list")["jobs"])
        yield from ended(house)


def late(program: str) -> Checks:
    """A node that was away for longer than the log is kept goes on from a snapshot, and a service that is killed from its files."""
    short = "import sched_jobs.cluster.snapshots as s, sched_jobs.cluster.log as l; l.GROUPS_BETWEEN = 8; s.GROUPS_KEPT = 3"
    with cluster(program) as house:
        for node in house.nodes:
            node.serve(driver=short, waits=False)
        yield "they serve", soon(lambda: all(node.answers() and node.status()["logs"][0]["leader"] for node in house.nodes))
        late_one = next(node for node in house.nodes if node is not house.leader())
        late_one.kill()
        other = next(node for node in house.nodes if node is not late_one)
        for number in range(12):
            other.add(f"j-{number}", SHOWS)
            soon(lambda: other.state_of(f"j-{number}") == "done")
        groups = other.status()["logs"][0]["group"]
        yield "the log is kept short", soon(lambda: (house.group_count(0) or groups) < groups)
        yield "it serves again", late_one.serve(driver=short)
        yield "from the snapshot", soon(house.is_even) and "to the snapshot" in late_one.told()
        yield "and knows all", len(late_one.ask("list", all=True)["jobs"]) == 12
        late_one.kill()
        other.add("more", SHOWS)
        yield "and again", late_one.serve(driver=short) and soon(lambda: late_one.refusal("show", name="more") == "")
        late_one.kill()
        shutil.rmtree(late_one.state)
        yield "and with no files", late_one.serve(driver=short) and soon(house.is_even)
        yield from ended(house)


def silent(program: str) -> Checks:
    """Where etcd answers nothing, that is said, and nothing is lost."""
    with cluster(program) as house:
        yield "they serve", house.serve()
        a = house.nodes[0]
        a.add("long", SHOWS + f"; sleep {LEASE}")
        a.add("later", SHOWS, **{"in": f"{2 * LEASE}s"})
        yield "one runs", soon(lambda: a.state_of("long") == "runs")
        for server in house.servers:
            server.signal(signal.SIGSTOP)
        told = a.refusal("add", name="refused", table={"command": ["true"]})
        yield f"it is said: {told}", "etcd" in told or "leads" in told
        yield "the node tells it", soon(lambda: "no server of etcd answers" in a.told())
        for server in house.servers:
            server.signal(signal.SIGCONT)
        yield "it answers again", soon(lambda: "etcd answers again" in a.told())
        yield "all is done", soon(lambda: all(a.refusal("show", name=name) or a.state_of(name) in ("done", "failed")
                                              for name in ("long", "later")), 60 + 10 * LEASE)
        yield "each was begun once", [len(a.effects(name)) for name in ("long", "later")] == [1, 1]
        yield from ended(house)
        for server in house.servers:
            server.kill()
        a.serve(waits=False)
        yield "a service ends that finds none", a.served is not None and a.served.wait(60 * SLOWNESS) == 1
        yield "and says why", "cluster: no server of etcd answers" in a.told().splitlines()[-1]


def fenced(program: str) -> Checks:
    """Two of a name are refused; a transaction of who does not lead does nothing."""
    with cluster(program) as house:
        from sched_jobs.cluster.etcd import Gateway, Server
        from sched_jobs.service.loop import Loop
        gateway = Gateway(Loop(), [Server("127.0.0.1", server.port) for server in house.servers], 5)

        def done(compare: list[dict], key: str) -> dict:
            return gateway.answer("kv/txn", transaction(compare, [put(key, b"x")]), 20)

        made = int(done([is_absent("k/leader")], "k/leader")["header"]["revision"])
        yield "who leads writes", done([is_absent("k/1"), was_made_at("k/leader", made)], "k/1").get("succeeded") is True
        yield "once", not done([is_absent("k/1"), was_made_at("k/leader", made)], "k/1").get("succeeded")
        yield "another one does not", not done([is_absent("k/2"), was_made_at("k/leader", made - 1)], "k/2").get("succeeded")
        yield "they serve", house.serve()
        a, b = house.nodes[:2]
        b.kill()
        b.name = "a"
        b.serve(waits=False)
        yield "a name is one node's", soon(lambda: "another node serves that is named a" in b.told(), 60 + 10 * LEASE)
        yield "which ends", b.served is not None and b.served.wait(60 * SLOWNESS) == 1
        yield "the other one serves", a.answers() and soon(lambda: "a" in a.status()["nodes"])


TESTS = [together, gone, paused, late, silent, fenced] if ETCD else []
if not ETCD:
    print("note: etcd is not there (Debian's etcd-server): clusters are not tried")
