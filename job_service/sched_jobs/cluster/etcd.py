"""The gateway of etcd, which takes and gives JSON: what is asked of it in its words, and several servers of which one answers."""

import base64
import json
import time
from collections.abc import Callable
from dataclasses import dataclass
from functools import partial
from urllib.parse import urlsplit

from sched_jobs.basics import Fault, Json
from sched_jobs.cluster.http import Connection
from sched_jobs.service.loop import Loop

USUAL_PORT = 2379
MOST_IDLE = 4
SECONDS_BETWEEN = 0.1
# What gRPC calls these: they are answers, and not faults of a server.
INVALID, NOT_FOUND, OUT_OF_RANGE = 3, 5, 11
DEFINITE = (INVALID, NOT_FOUND, OUT_OF_RANGE)
Then = Callable[[Json], None]
Failed = Callable[[str], None]


# ---- what is asked


def text_of(value: bytes | str) -> str:
    """Bytes as the gateway has them."""
    return base64.b64encode(value.encode() if isinstance(value, str) else value).decode()


def bytes_of(text: str) -> bytes:
    return base64.b64decode(text)


def end_of(prefix: str) -> str:
    """The first key behind all that begin so."""
    return prefix[:-1] + chr(ord(prefix[-1]) + 1)


def is_absent(key: str) -> Json:
    return {"key": text_of(key), "target": "CREATE", "create_revision": "0"}


def is_there(key: str) -> Json:
    return {"key": text_of(key), "target": "CREATE", "result": "GREATER", "create_revision": "0"}


def was_made_at(key: str, revision: int) -> Json:
    return {"key": text_of(key), "target": "CREATE", "create_revision": str(revision)}


def was_put_at(key: str, revision: int) -> Json:
    return {"key": text_of(key), "target": "MOD", "mod_revision": str(revision)}


def put(key: str, value: bytes, lease: int = 0) -> Json:
    return {"request_put": {"key": text_of(key), "value": text_of(value), "lease": str(lease)}}


def delete(key: str, end: str | None = None) -> Json:
    return {"request_delete_range": {"key": text_of(key)} | ({} if end is None else {"range_end": text_of(end)})}


def get(key: str, end: str | None = None, limit: int = 0) -> Json:
    ends = {} if end is None else {"range_end": text_of(end)}
    return {"request_range": {"key": text_of(key), "limit": str(limit)} | ends}


def transaction(compare: list[Json], success: list[Json], failure: list[Json] | None = None) -> Json:
    return {"compare": compare, "success": success, "failure": failure or []}


def watching(prefix: str, revision: int) -> Json:
    return {"create_request": {"key": text_of(prefix), "range_end": text_of(end_of(prefix)), "start_revision": str(revision)}}


# ---- what is answered


@dataclass(frozen=True)
class Pair:
    """A key, its value, and the revisions at which it was made and put last. The value of one that was deleted is none."""

    key: str
    value: bytes | None
    made: int
    put: int
    lease: int = 0


def pair_of(found: Json, is_deleted: bool = False) -> Pair:
    value = None if is_deleted else bytes_of(found.get("value", ""))
    return Pair(bytes_of(found["key"]).decode(), value, int(found.get("create_revision", 0)), int(found.get("mod_revision", 0)),
                int(found.get("lease", 0)))


@dataclass(frozen=True)
class Found:
    """What a range has found, and whether there is more."""

    pairs: list[Pair]
    is_more: bool


def found_in(response: Json) -> Found:
    told = response.get("response_range", response)
    return Found([pair_of(found) for found in told.get("kvs", [])], bool(told.get("more")))


def revision_of(answer: Json) -> int:
    return int(answer["header"]["revision"])


# ---- servers


@dataclass(frozen=True)
class Server:
    """Where a server is."""

    host: str
    port: int


def servers_of(text: str) -> list[Server]:
    """The servers of a list of addresses, or a ValueError."""
    found = []
    for word in text.split(","):
        parts = urlsplit(word)
        if parts.scheme != "http" or not parts.hostname or parts.path not in ("", "/") or parts.query or parts.username:
            raise ValueError(f"{word!r} is no http://HOST:PORT")
        found.append(Server(parts.hostname, parts.port or USUAL_PORT))
    return found


class Watch:
    """A watch that goes on until it ends or is closed. Closed, it tells nothing more."""

    def __init__(self, connection: Connection, ended: Failed) -> None:
        self.connection, self.ended, self.is_open = connection, ended, True

    def end(self, why: str | None) -> None:
        if self.is_open:
            self.close()
            self.ended(why or "the watch has ended")

    def close(self) -> None:
        self.is_open = False
        self.connection.close()


class Gateway:
    """The servers, of which one is asked until it fails: then it is the next one's turn, and the watches of the first one end."""

    def __init__(self, loop: Loop, servers: list[Server], seconds: float) -> None:
        self.loop, self.servers, self.seconds = loop, servers, seconds
        self.at, self.fault, self.answered_at = 0, "", time.monotonic()
        self.idle: dict[Server, list[Connection]] = {server: [] for server in servers}
        self.watches: list[Watch] = []

    def connection(self, server: Server) -> Connection:
        idle = self.idle[server]
        while idle:
            if (found := idle.pop()).is_open:
                return found
        return Connection(self.loop, server.host, server.port)

    def rotate(self, server: Server) -> None:
        """Turns away from a server that has failed."""
        if self.servers[self.at % len(self.servers)] != server:
            return
        self.at += 1
        for connection in self.idle[server]:
            connection.close()
        self.idle[server] = []
        watches, self.watches = self.watches, []
        for watch in watches:
            self.loop.later(0, partial(watch.end, "its server has failed"))

    def call(self, path: str, body: Json, then: Then, failed: Failed, seconds: float | None = None) -> None:
        """Asks one thing. Either call is made, once: what was asked may have been done also where there is no answer."""
        server = self.servers[self.at % len(self.servers)]
        connection, pieces = self.connection(server), [b""]

        def ended(why: str | None) -> None:
            timer.cancel()
            answer = None if why else answer_of(b"".join(pieces))
            if answer is None or "error" in answer and answer.get("code") not in DEFINITE:
                self.rotate(server)
                self.fault = f"http://{server.host}:{server.port}: {why or (answer or {}).get('error', 'no JSON')}"
                failed(self.fault)
                return
            self.answered_at = time.monotonic()
            if connection.is_open and len(self.idle[server]) < MOST_IDLE:
                self.idle[server].append(connection)
            else:
                connection.close()
            then(answer)

        timer = self.loop.later(seconds or self.seconds, lambda: connection.end("no answer in time"))
        connection.ask(f"/v3/{path}", json.dumps(body).encode(), pieces.append, ended)

    def answer(self, path: str, body: Json, seconds: float) -> Json:
        """Asks one thing, and waits for its answer: a Fault where there is none in so many seconds."""
        found: list[Json] = []
        limit = time.monotonic() + seconds

        def ask() -> None:
            self.call(path, body, found.append, again)

        def again(_: str) -> None:
            self.loop.later(SECONDS_BETWEEN, ask)

        ask()
        while not found:
            if time.monotonic() > limit:
                raise Fault(f"cluster: no server of etcd answers: {self.fault or 'none in time'}")
            self.loop.sleep(0.1)
        return found[0]

    def watch(self, prefix: str, revision: int, heard: Then, ended: Failed) -> Watch:
        """Hears what becomes of keys from a revision on. `ended` is called where there is no more."""
        server, lines = self.servers[self.at % len(self.servers)], [b""]
        found = Watch(Connection(self.loop, server.host, server.port), ended)

        def piece(more: bytes) -> None:
            *whole, lines[0] = (lines[0] + more).split(b"\n")
            for line in whole:
                if line.strip() and found.is_open:
                    heard(answer_of(line) or {"error": "no JSON"})

        self.watches = [watch for watch in self.watches if watch.is_open] + [found]
        found.connection.ask("/v3/watch", json.dumps(watching(prefix, revision)).encode(), piece, found.end)
        return found


def answer_of(text: bytes) -> Json | None:
    try:
        found = json.loads(text)
    except ValueError:
        return None
    return found if isinstance(found, dict) else None
