"""The socket: who may open it, and who keeps it busy."""

import os
import socket
import stat
import subprocess
import sys
import time

from house import Checks, House, stopped
from sched_jobs.service.sockets import MOST_BYTES

NOBODY = 65_534
# Another user's process, which asks for the status.
FOREIGN = """
import os, socket, sys
os.setgid({nobody}); os.setuid({nobody})
stream = socket.socket(socket.AF_UNIX)
try:
    stream.connect({path!r})
    stream.sendall(b'{{"do": "status"}}\\n')
    print(len(stream.recv(1)))
except OSError as error:
    print(type(error).__name__)
"""


def connected(house: House) -> socket.socket:
    stream = socket.socket(socket.AF_UNIX)
    stream.settimeout(20)
    stream.connect(str(house.state / "socket"))
    return stream


def foreign(house: House) -> str:
    """What another user gets."""
    code = FOREIGN.format(nobody=NOBODY, path=str(house.state / "socket"))
    return subprocess.run([sys.executable, "-S", "-c", code], capture_output=True, text=True, cwd="/").stdout.strip()


def users(program: str) -> Checks:
    with House(program) as house:
        yield "it serves", house.serve()
        modes = [stat.S_IMODE(os.stat(path).st_mode) for path in (house.state, house.state / "socket", *house.state.glob("*-0*"))]
        yield "nobody else may read anything", modes[:2] == [0o700, 0o600] and set(modes[2:]) == {0o600}
        if os.geteuid():
            print("another user's process is tried by root alone")
        else:
            yield "nobody else may open it", foreign(house) == "PermissionError"
            os.chmod(house.folder, 0o755)
            os.chmod(house.state, 0o755)
            os.chmod(house.state / "socket", 0o666)
            yield "and who opens it is looked at", foreign(house) in ("0", "BrokenPipeError", "ConnectionResetError")
            yield "that is told", f"user {NOBODY} was refused" in house.told()
        yield "its user is answered", house.answers()
        yield "it stops", stopped(house)


def busy_ones(program: str) -> Checks:
    """Whoever asks nothing, half a line, no JSON or too much holds up nobody, and whoever goes away is not waited for."""
    with House(program) as house:
        yield "it serves", house.serve()
        silent = [connected(house) for _ in range(20)]
        half = connected(house)
        half.sendall(b'{"do": "sta')
        for text, answer in [
            (b"\n", b'{"error": "no JSON"}\n'), (b"[" * 5_000 + b"\n", b'{"error": "no JSON"}\n'),
            (b'"x"\n', b'{"error": "a request'), (b'{"do": []}\n', b'{"error": "a request'),
        ]:
            stream = connected(house)
            stream.sendall(text)
            found = stream.makefile("rb").readline()
            yield f"{text[:10]}: {found[:40]}", found.startswith(answer)
        large = connected(house)
        try:
            for _ in range(MOST_BYTES // 65_536 + 2):
                large.sendall(b" " * 65_536)
            yield "too much is let go", large.recv(1) == b""
        except OSError:
            yield "too much is let go", True
        gone = connected(house)
        gone.sendall(b'{"do": "add", "name": "gone", "table": {"command": ["true"], "in": "1h"}}\n')
        gone.close()
        half.sendall(b'tus"}\n')
        yield "the half line goes on", b'"workers"' in half.makefile("rb").readline()
        begun = time.monotonic()
        yield "others are answered meanwhile", house.answers() and time.monotonic() - begun < 5
        yield "what was asked is done", "gone" in house.jobs()
        for stream in silent:
            stream.close()
        yield "it stops", stopped(house)


def long_paths(program: str) -> Checks:
    """The folder's path may be longer than that of a socket."""
    with House(program) as house:
        house.state = house.folder / ("x" * 120)
        house.environment["SCHED_JOBS_STATE"] = str(house.state)
        yield "it serves", house.serve() and house.answers()
        yield "it stops", stopped(house)


TESTS = [users, busy_ones, long_paths]
