"""A cluster on one machine: servers of etcd, and nodes, each with a folder and wires of its own."""

import os
import shutil
import signal
import subprocess
import sys
import tempfile
import time
from pathlib import Path

from house import DRIVEN, STAND_IN, TOP, House, keeps_a_journal, soon
from sched_jobs.basics import Fault
from sched_jobs.cluster.etcd import Gateway, Pair, Server, end_of, found_in, get
from sched_jobs.cluster.groups import Group, decoded
from sched_jobs.cluster.keys import groups_prefix
from sched_jobs.service.loop import Loop
from sched_jobs.store.segments import file_of, segments_of
from wires import Wires, free_port

ETCD = shutil.which("etcd")
# The wall clock of this node shows so many seconds more than it does.
SKEWED = """
import time
import sched_jobs.service.clocks as clocks
plain = time.time_ns
clocks.Clocks.__init__.__defaults__ = (lambda: plain() + {skew} * 10**9, *clocks.Clocks.__init__.__defaults__[1:])
{more}
"""


class Etcd:
    """A server of etcd."""

    def __init__(self, folder: Path, name: str, port: int, peer: int, cluster: str, advertised: int, slowness: int) -> None:
        self.folder, self.name, self.port = folder, name, port
        url, there = "http://127.0.0.1:{}".format, f"http://127.0.0.1:{advertised}"
        self.words = [
            str(ETCD), "--name", name, "--data-dir", str(folder / name), "--listen-client-urls", url(port),
            "--advertise-client-urls", url(port),
            "--listen-peer-urls", url(peer), "--initial-advertise-peer-urls", there, "--initial-cluster", cluster, "--log-level", "error",
            "--heartbeat-interval", f"{100 * slowness}", "--election-timeout", f"{1_000 * slowness}"]
        self.process: subprocess.Popen | None = None

    def serve(self) -> None:
        with open(self.folder / f"{self.name}.log", "ab") as told:
            self.process = subprocess.Popen(self.words, stdin=subprocess.DEVNULL, stdout=told, stderr=told)

    def signal(self, number: signal.Signals) -> None:
        if self.process is not None and self.process.poll() is None:
            self.process.send_signal(number)

    def kill(self) -> None:
        self.signal(signal.SIGCONT)
        self.signal(signal.SIGKILL)
        if self.process is not None:
            self.process.wait()


class Machine(House):
    """A node: a service, and the jobs that it runs. `effects` of all nodes are in one file."""

    def __init__(self, cluster: "Cluster", name: str, workers: int, skew: int = 0) -> None:
        super().__init__(cluster.program, workers)
        shutil.rmtree(self.folder)
        self.cluster, self.name, self.skew = cluster, name, skew
        self.folder = cluster.folder
        self.state = self.folder / name
        self.environment |= {"SCHED_JOBS_STATE": str(self.state)}
        self.wires = [cluster.wires.wire(server.port) for server in cluster.servers] if cluster.wires is not None else []

    def serve(self, *words: str, driver: str = "", waits: bool = True, **environment: str) -> bool:
        engine = self.program if keeps_a_journal(self.program) else str(STAND_IN)
        servers = ",".join(f"http://127.0.0.1:{one.port}" for one in self.wires or self.cluster.servers)
        serve = ["serve", "--workers", str(self.workers), "--sched", engine, "--cluster", servers, "--name", self.name,
                 "--logs", str(self.cluster.logs), "--lease", f"{self.cluster.lease}s", *words]
        begin = DRIVEN.format(top=str(TOP), driver=SKEWED.format(skew=self.skew, more=driver), words=serve)
        with open(self.folder / f"{self.name}.told", "ab") as told:
            self.served = subprocess.Popen([sys.executable, "-c", begin], stdin=subprocess.DEVNULL, stdout=told, stderr=told,
                                           env=self.environment | environment, cwd=self.folder)
        return not waits or soon(lambda: self.served.poll() is not None or self.answers())

    def told(self) -> str:
        return (self.folder / f"{self.name}.told").read_text(errors="replace")

    def is_serving(self) -> bool:
        return self.served is not None and self.served.poll() is None

    def pause(self) -> None:
        if self.is_serving():
            self.served.send_signal(signal.SIGSTOP)

    def go_on(self) -> None:
        if self.is_serving():
            self.served.send_signal(signal.SIGCONT)

    def die(self) -> None:
        """The service ends, and all that it runs."""
        self.kill()
        for marks in (self.state / "runs").glob("*/*") if (self.state / "runs").exists() else []:
            try:
                process = int(marks.read_text().split()[0])
                if b"sched-jobs" in Path(f"/proc/{process}/cmdline").read_bytes():
                    os.killpg(process, signal.SIGKILL)
            except (OSError, ValueError, IndexError):
                pass

    def end_jobs(self) -> None:
        self.die()

    def cut(self, is_cut: bool = True) -> None:
        assert self.cluster.wires is not None
        self.cluster.wires.cut(self.wires, is_cut)

    def status(self) -> dict:
        return self.ask("status")

    def trace_of(self, log: int) -> list[str]:
        """What the executor has answered, as far as the segments have it."""
        found: list[str] = []
        folder = self.state / "logs" / f"{log}"
        for at in segments_of(folder):
            found += ["?"] * (at - len(found)) + file_of(folder, "trace", at).read_text().splitlines()
        return found

    def journal_of(self, log: int) -> bytes:
        return (self.state / "logs" / f"{log}" / "journal" / "lines").read_bytes()


class Cluster:
    """Servers and nodes. Where the machine has little time for them, `slowness` makes each of etcd's spans so many times as long."""

    def __init__(self, program: str, workers: int = 3, logs: int = 1, lease: int = 3, skews: tuple[int, ...] = (0, 0, 0),
                 servers: int = 3, is_wired: bool = True, slowness: int = 1) -> None:
        self.program, self.logs, self.lease, self.slowness = program, logs, lease, slowness
        self.folder = Path(tempfile.mkdtemp(prefix="cluster-"))
        self.wires = Wires() if is_wired else None
        peers = [free_port() for _ in range(servers)]
        self.peer_wires = [self.wires.wire(port) for port in peers] if self.wires else []
        there = [wire.port for wire in self.peer_wires] or peers
        whole = ",".join(f"e{at}=http://127.0.0.1:{port}" for at, port in enumerate(there))
        self.servers = [Etcd(self.folder, f"e{at}", free_port(), peer, whole, there[at], slowness) for at, peer in enumerate(peers)]
        self.nodes = [Machine(self, name, workers, skew) for name, skew in zip("abcdef", skews)]

    def __enter__(self) -> "Cluster":
        for server in self.servers:
            server.serve()
        soon(lambda: self.group_count(0) is not None)
        return self

    def __exit__(self, *_: object) -> None:
        for node in self.nodes:
            node.go_on()
            node.die()
        for server in self.servers:
            server.kill()
        if self.wires is not None:
            self.wires.close()
        if not os.environ.get("KEEP"):
            shutil.rmtree(self.folder, ignore_errors=True)

    def serve(self) -> bool:
        for node in self.nodes:
            node.serve(waits=False)
        return soon(lambda: all(node.answers() and all(log["leader"] for log in node.status()["logs"]) for node in self.nodes),
                    60 * self.slowness)

    # ---- what is asked

    def ask(self, what: str, **words: object) -> dict:
        """Asks the first node that answers."""
        last = Fault("nobody serves")
        for node in self.nodes:
            if node.is_serving():
                try:
                    return node.ask(what, **words)
                except Fault as fault:
                    last = fault
        raise last

    def jobs(self) -> dict[str, dict]:
        return {job["name"]: job for job in self.ask("list", all=True)["jobs"]}

    def leader(self, log: int = 0) -> Machine | None:
        """The node that leads, as its followers and itself see it."""
        for node in self.nodes:
            try:
                name = node.status()["logs"][log]["leader"]
            except Fault:
                continue
            return next((node for node in self.nodes if node.name == name), None)
        return None

    # ---- what stands in etcd

    def pairs(self, prefix: str, server: int = 0) -> list[Pair]:
        gateway = Gateway(Loop(), [Server("127.0.0.1", one.port) for one in self.servers], 2)
        return found_in(gateway.answer("kv/range", get(prefix, end_of(prefix))["request_range"], 20)).pairs

    def groups(self, log: int) -> list[tuple[Group, int]]:
        return [(decoded(pair.value or b""), pair.made) for pair in self.pairs(groups_prefix(log))]

    def group_count(self, log: int) -> int | None:
        try:
            return len(self.pairs(groups_prefix(log)))
        except Fault:
            return None

    def is_even(self) -> bool:
        """Whether all nodes stand at the same group of each log."""
        try:
            return len({str([log["group"] for log in node.status()["logs"]]) for node in self.nodes}) == 1
        except Fault:
            return False
