"""The files: torn at each byte, decayed, held by another, and where nothing can be written."""

import resource
import shutil
import signal
import tempfile
from pathlib import Path

from house import SHOWS, Checks, House, soon, stopped
from sched_jobs.basics import Fault
from sched_jobs.store import lines
from sched_jobs.store.files import Appended, Unwritten, content_of
from sched_jobs.store.segments import Store, answers_of, read_segment, whole_trace

TRACE = ["10 clock", "11 submit 0 schedule due 11", "11 shutdown", "11 end 0", "12 clock"]
RECORDS = [{"line": 1, "job": "a"}, {"after": 2, "set": "a", "state": "paused"}, {"after": 3, "put": {"name": "\u00fc"}}]


class Folder:
    """A folder that goes away again."""

    def __enter__(self) -> Path:
        self.path = Path(tempfile.mkdtemp(prefix="jobs-"))
        return self.path

    def __exit__(self, *_: object) -> None:
        shutil.rmtree(self.path)


def torn(_: str) -> Checks:
    """Whatever is cut off, what is read is a front of what was written."""
    with Folder() as folder:
        store = Store(folder, 0, {"lines": 0})
        store.keep(RECORDS, True)
        store.add_trace(list(answers_of(TRACE)))
        store.close()
        yield "all is read", read_segment(folder, 0).records == RECORDS
        yield "answers have their ends", read_segment(folder, 0).answers == [TRACE[:1], TRACE[1:2], TRACE[2:4], TRACE[4:]]
        for name, wanted, found in [
            ("records", RECORDS, lambda: read_segment(folder, 0).records),
            ("trace", TRACE, lambda: sum(read_segment(folder, 0).answers, [])),
        ]:
            path = folder / f"{name}-{0:016}"
            content = path.read_bytes()
            fronts = []
            for size in range(len(content) + 1):
                path.write_bytes(content[:size])
                fronts.append(found())
            yield f"{name}: each is a front", all(front == wanted[:len(front)] for front in fronts) and fronts[-1] == wanted
            path.write_bytes(content[:20] + b"\0" * 30)
            yield f"{name}: zeroes are none", found() == wanted[:len(found())]
            path.write_bytes(content)


def decayed(_: str) -> Checks:
    """Each bit of a line that is turned is seen."""
    line = lines.written({"line": 5, "job": "a"})
    good = 0
    for place in range(8 * len(line)):
        turned = bytearray(line)
        turned[place // 8] ^= 1 << place % 8
        good += lines.whole_front(bytes(turned)) == ([], 0)
    yield "in records", good == 8 * len(line)
    with Folder() as folder:
        Store(folder, 0, {"lines": 0}).close()
        (folder / f"jobs-{0:016}").write_bytes(b"00000000 {}\n")
        try:
            read_segment(folder, 0)
            yield "in jobs", False
        except Fault as fault:
            yield "in jobs", "decayed" in str(fault)
    yield "a trace of other letters is none", whole_trace(b"10 clock\n1\xff clock\n") == (["10 clock"], 9)


def refused_writes(_: str) -> Checks:
    """What a write leaves that failed is taken away."""
    with Folder() as folder:
        file = Appended(folder / "file")
        file.append(b"whole\n", True)
        soft, hard = resource.getrlimit(resource.RLIMIT_FSIZE)
        before = signal.signal(signal.SIGXFSZ, signal.SIG_IGN)
        resource.setrlimit(resource.RLIMIT_FSIZE, (10, hard))
        try:
            file.append(b"too long a line\n", True)
            yield "it fails", False
        except Unwritten as fault:
            yield f"it fails: {fault}", str(fault).endswith("not written: File too large")
        finally:
            resource.setrlimit(resource.RLIMIT_FSIZE, (soft, hard))
            signal.signal(signal.SIGXFSZ, before)
        yield "what was there stands", content_of(folder / "file") == b"whole\n"
        file.append(b"next\n")
        yield "and the next goes behind it", content_of(folder / "file") == b"whole\nnext\n"


def full_disk(program: str) -> Checks:
    """A service that may write no more refuses what it can't keep, loses nothing, and goes on once it may."""
    with House(program) as house:
        yield "it serves", house.serve(driver="import signal; signal.signal(signal.SIGXFSZ, signal.SIG_IGN)")
        house.add("before", SHOWS, **{"in": "500ms"})
        house.add("later", SHOWS, **{"in": "1s"})
        size = max(path.stat().st_size for path in house.state.glob("records-*"))
        _, most = resource.prlimit(house.served.pid, resource.RLIMIT_FSIZE)
        resource.prlimit(house.served.pid, resource.RLIMIT_FSIZE, (size + 10, most))
        told = house.refusal("add", name="refused", table={"command": ["true"]})
        yield f"it is refused: {told}", told.endswith("not written: File too large")
        resource.prlimit(house.served.pid, resource.RLIMIT_FSIZE, (most, most))
        yield "it is not there", "refused" not in house.jobs()
        yield "another one is taken", soon(lambda: house.refusal("add", name="taken", table={"command": ["true"]}) == "")
        yield "all is done", soon(lambda: house.is_over("before", "later", "taken"))
        yield "each once", len(house.effects("before")) == len(house.effects("later")) == 1
        yield "it stops", stopped(house)
        yield from house.holds()


def segments(program: str) -> Checks:
    """Segments follow one another while it serves, and the history goes over all of them."""
    driver = "import sched_jobs.store.segments as s; s.LARGEST = 3_000; s.KEPT = 20_000"
    with House(program) as house:
        yield "it serves", house.serve(driver=driver)
        house.add("beat", "true", every="100ms")
        yield "segments follow", soon(lambda: len(list(house.state.glob("jobs-*"))) > 3)
        house.kill()
        yield "it goes on", house.serve(driver=driver) and house.job("beat")["runs"] > 3
        yield "old ones go", soon(lambda: not (house.state / f"jobs-{1:016}").exists())
        yield "it stops", stopped(house)
        yield "the rest is small", sum(path.stat().st_size for path in house.state.glob("*-0*")) < 40_000
        lines_told = house.run("log", "--lines", "100000").stdout.splitlines()
        yield "the history has what is kept", len(lines_told) > 3 and all(" beat task " in line for line in lines_told)
        yield from house.holds()


TESTS = [torn, decayed, refused_writes, full_disk, segments]
