"""The socket of the service. Who may open it is who may run its jobs: a line of JSON is asked, a line of JSON is answered."""

import contextlib
import json
import os
import socket
import struct
import time
from collections.abc import Callable
from pathlib import Path

from sched_jobs.basics import Fault, tell

MOST_BYTES = 8 << 20
MOST_CONNECTIONS = 100
SECONDS_TO_ASK = 10
PEER = struct.Struct("3i")
Watch = Callable[..., None]


def short_path(folder: int, name: str) -> str:
    """A path to a name in an open folder, which is short enough for a socket wherever the folder is."""
    return f"/proc/self/fd/{folder}/{name}"


def peer_of(connection: socket.socket) -> int:
    """The user at the other end."""
    return PEER.unpack(connection.getsockopt(socket.SOL_SOCKET, socket.SO_PEERCRED, PEER.size))[1]


def is_allowed(user: int) -> bool:
    """The service's own user may ask, and root, who may do all anyway."""
    return user in (os.geteuid(), 0)


class Connection:
    """Someone who asks one thing."""

    def __init__(self, server: "Server", stream: socket.socket) -> None:
        self.server, self.stream, self.asked, self.reply = server, stream, b"", b""
        self.since, self.is_answered = time.monotonic(), False
        stream.setblocking(False)
        server.watch(stream, self.hear)

    def hear(self) -> None:
        """Reads on. Who closes, or asks without an end, is let go; what was asked is done all the same."""
        try:
            piece = self.stream.recv(65_536)
        except BlockingIOError:
            return
        except OSError:
            piece = b""
        self.asked += piece
        if not piece or len(self.asked) > MOST_BYTES:
            self.close()
        elif self.asked.endswith(b"\n"):
            self.server.unwatch(self.stream)
            self.server.take(self, self.asked)

    def answer(self, value: object) -> None:
        self.is_answered, self.since = True, time.monotonic()
        self.reply = json.dumps(value).encode() + b"\n"
        self.server.watch(self.stream, self.send, is_for_writing=True)
        self.send()

    def send(self) -> None:
        try:
            self.reply = self.reply[self.stream.send(self.reply):]
        except BlockingIOError:
            return
        except OSError:
            self.reply = b""
        if not self.reply:
            self.close()

    def close(self) -> None:
        with contextlib.suppress(KeyError, ValueError):
            self.server.unwatch(self.stream)
        self.stream.close()
        self.server.connections.discard(self)


class Server:
    """The listening end. `ask` takes what was asked, with a call that answers it."""

    def __init__(self, path: Path, watch: Watch, unwatch: Watch, ask: Callable[[object, Callable[[object], None]], None]) -> None:
        self.path, self.watch, self.unwatch, self.ask = path, watch, unwatch, ask
        self.connections: set[Connection] = set()
        self.listener = socket.socket(socket.AF_UNIX, socket.SOCK_STREAM | socket.SOCK_CLOEXEC)
        folder = os.open(path.parent, os.O_PATH | os.O_DIRECTORY | os.O_CLOEXEC)
        before = os.umask(0o177)
        try:
            path.unlink(missing_ok=True)
            self.listener.bind(short_path(folder, path.name))
            self.listener.listen(MOST_CONNECTIONS)
        except OSError as error:
            raise Fault(f"{path}: no socket: {error.strerror}") from error
        finally:
            os.umask(before)
            os.close(folder)
        self.listener.setblocking(False)
        watch(self.listener, self.accept)

    def accept(self) -> None:
        try:
            stream, _ = self.listener.accept()
        except OSError:
            return
        user = peer_of(stream)
        self.drop_idle()
        if not is_allowed(user) or len(self.connections) >= MOST_CONNECTIONS:
            if not is_allowed(user):
                tell(f"sched-jobs: user {user} was refused")
            stream.close()
            return
        self.connections.add(Connection(self, stream))

    def drop_idle(self) -> None:
        """Lets those go that ask nothing, or do not read what they are answered."""
        for connection in list(self.connections):
            is_waiting = connection.asked.endswith(b"\n") and not connection.is_answered
            if not is_waiting and time.monotonic() - connection.since > SECONDS_TO_ASK:
                connection.close()

    def take(self, connection: Connection, line: bytes) -> None:
        try:
            asked = json.loads(line)
        except (ValueError, RecursionError):
            connection.answer({"error": "no JSON"})
        else:
            self.ask(asked, connection.answer)

    def close(self) -> None:
        """Takes the socket away, once all have heard."""
        self.unwatch(self.listener)
        self.listener.close()
        self.path.unlink(missing_ok=True)
        limit = time.monotonic() + SECONDS_TO_ASK
        for connection in list(self.connections):
            if connection.is_answered and connection.reply and time.monotonic() < limit:
                with contextlib.suppress(OSError):
                    connection.stream.settimeout(1)
                    connection.stream.sendall(connection.reply)
            connection.close()
