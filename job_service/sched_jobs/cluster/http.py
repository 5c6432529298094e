"""Requests over HTTP that nobody waits for: the loop sees to them. A body is heard piece by piece, as it comes."""

import contextlib
import os
import socket
from collections.abc import Callable

from sched_jobs.service.loop import Loop

PIECE = 65_536
END = b"\r\n"
Heard = Callable[[bytes], None]
Ended = Callable[[str | None], None]


class BadAnswer(Exception):
    """What is answered is no HTTP."""


class Reader:
    """Reads one answer: its status, and its body."""

    def __init__(self) -> None:
        self.rest, self.status, self.left = b"", 0, 0
        self.is_kept = self.is_whole = False
        self.step: Callable[[], bytes | None] = self.head

    def read(self, piece: bytes) -> bytes:
        """What a piece of the answer has of the body."""
        self.rest += piece
        body = b""
        try:
            while not self.is_whole and (part := self.step()) is not None:
                body += part
        except (ValueError, IndexError, KeyError) as error:
            raise BadAnswer(f"this is no answer: {self.rest[:40]!r}") from error
        return body

    def head(self) -> bytes | None:
        front, end, rest = self.rest.partition(2 * END)
        if not end:
            return None
        first, *lines = front.split(END)
        self.status, self.rest = int(first.split()[1]), rest
        fields = {name.strip().lower(): text.strip().lower() for name, _, text in (line.partition(b":") for line in lines)}
        self.is_kept = fields.get(b"connection") != b"close"
        if fields.get(b"transfer-encoding") == b"chunked":
            self.step = self.chunk
        else:
            self.left, self.step = int(fields[b"content-length"]), self.plain
        return b""

    def taken(self) -> bytes:
        part, self.rest = self.rest[:self.left], self.rest[self.left:]
        self.left -= len(part)
        return part

    def plain(self) -> bytes | None:
        part = self.taken()
        self.is_whole = not self.left
        return part or None

    def chunk(self) -> bytes | None:
        size, end, rest = self.rest.partition(END)
        if not end:
            return None
        self.left, self.rest = int(size.split(b";")[0], 16), rest
        self.step = self.within if self.left else self.behind
        return b""

    def within(self) -> bytes | None:
        part = self.taken()
        if not self.left:
            self.step = self.behind_a_chunk
        return part or None

    def behind_a_chunk(self) -> bytes | None:
        if len(self.rest) < len(END):
            return None
        self.rest, self.step = self.rest[len(END):], self.chunk
        return b""

    def behind(self) -> bytes | None:
        """Behind the last chunk there may be fields, and then there is an empty line."""
        line, end, rest = self.rest.partition(END)
        if not end:
            return None
        self.rest, self.is_whole = rest, not line
        return b""


class Connection:
    """A connection to a server, on which requests follow one another. `ended` is called once for each: with none once the answer is
    whole, or with why it is not."""

    def __init__(self, loop: Loop, host: str, port: int) -> None:
        self.loop, self.host, self.port = loop, host, port
        self.stream = socket.socket(socket.AF_INET6 if ":" in host else socket.AF_INET, socket.SOCK_STREAM | socket.SOCK_CLOEXEC)
        self.stream.setblocking(False)
        self.stream.setsockopt(socket.IPPROTO_TCP, socket.TCP_NODELAY, 1)
        self.is_open, self.is_new, self.unsent = True, True, b""
        self.reader: Reader | None = None
        self.heard: Heard = lambda _: None
        self.ended: Ended = lambda _: None

    def ask(self, path: str, body: bytes, heard: Heard, ended: Ended) -> None:
        head = f"POST {path} HTTP/1.1\r\nHost: {self.host}:{self.port}\r\nContent-Type: application/json\r\nContent-Length: {len(body)}"
        self.heard, self.ended, self.reader = heard, ended, Reader()
        self.unsent = head.encode() + 2 * END + body
        self.loop.unwatch(self.stream)
        try:
            if self.is_new:
                self.is_new = False
                self.stream.connect((self.host, self.port))
        except BlockingIOError:
            pass
        except OSError as error:
            why = os.strerror(error.errno) if error.errno else str(error)
            self.loop.later(0, lambda: self.end(why))
            return
        self.loop.watch(self.stream, self.send, is_for_writing=True)

    def send(self) -> None:
        fault = self.stream.getsockopt(socket.SOL_SOCKET, socket.SO_ERROR)
        if fault:
            self.end(os.strerror(fault))
            return
        try:
            self.unsent = self.unsent[self.stream.send(self.unsent):]
        except BlockingIOError:
            return
        except OSError as error:
            self.end(str(error.strerror))
            return
        if not self.unsent:
            self.loop.unwatch(self.stream)
            self.loop.watch(self.stream, self.receive)

    def receive(self) -> None:
        """Reads on. What comes while nothing was asked ends the connection."""
        try:
            piece = self.stream.recv(PIECE)
        except BlockingIOError:
            return
        except OSError as error:
            self.end(str(error.strerror))
            return
        if not piece or self.reader is None:
            self.end("the connection was closed")
            return
        reader = self.reader
        try:
            body = reader.read(piece)
        except BadAnswer as fault:
            self.end(str(fault))
            return
        if body:
            self.heard(body)
        if reader.is_whole and self.reader is reader:
            self.reader, ended = None, self.ended
            if not reader.is_kept:
                self.close()
            ended(None)

    def end(self, why: str) -> None:
        """The request that is under way has no answer, and there is no other one."""
        is_asked, ended = self.reader is not None and self.is_open, self.ended
        self.close()
        if is_asked:
            ended(why)

    def close(self) -> None:
        if self.is_open:
            self.is_open, self.reader = False, None
            self.loop.unwatch(self.stream)
            with contextlib.suppress(OSError):
                self.stream.close()
