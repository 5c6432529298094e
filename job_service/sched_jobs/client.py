"""The end of the socket that asks."""

import json
import os
import socket
from pathlib import Path

from sched_jobs.basics import Fault, Json
from sched_jobs.service.sockets import short_path

SECONDS = 120
LOST = "the service ended before it answered: it may have been done, 'list' tells"


def usual_state() -> Path:
    """The folder of the service where none is named: that of the system for root, and else the user's own."""
    named = os.environ.get("SCHED_JOBS_STATE")
    if named:
        return Path(named)
    if os.geteuid() == 0:
        return Path("/var/lib/sched-jobs")
    return Path(os.environ.get("XDG_STATE_HOME") or Path.home() / ".local/state") / "sched-jobs"


def connected(state: Path) -> socket.socket:
    stream = socket.socket(socket.AF_UNIX, socket.SOCK_STREAM | socket.SOCK_CLOEXEC)
    stream.settimeout(SECONDS)
    try:
        folder = os.open(state, os.O_PATH | os.O_DIRECTORY | os.O_CLOEXEC)
        try:
            stream.connect(short_path(folder, "socket"))
        finally:
            os.close(folder)
    except (FileNotFoundError, ConnectionRefusedError, NotADirectoryError) as error:
        stream.close()
        raise Fault(f"no service serves {state}") from error
    except OSError as error:
        stream.close()
        raise Fault(f"{state}: {error.strerror}") from error
    return stream


def ask(state: Path, request: Json) -> Json:
    """What the service answers, or a Fault with its error."""
    with connected(state) as stream:
        try:
            stream.sendall(json.dumps(request).encode() + b"\n")
            with stream.makefile("rb") as file:
                line = file.readline()
        except OSError as error:
            raise Fault(LOST) from error
    if not line.endswith(b"\n"):
        raise Fault(LOST)
    answer = json.loads(line)
    if "error" in answer:
        raise Fault(answer["error"])
    return answer
