"""Wires between ports of this machine, which may be cut: then nothing comes through, and nobody is told."""

import contextlib
import os
import selectors
import socket
import threading

PIECE = 65_536


def free_port() -> int:
    with socket.socket() as stream:
        stream.bind(("127.0.0.1", 0))
        return stream.getsockname()[1]


class Wire:
    """A port that leads to another one."""

    def __init__(self, wires: "Wires", target: int) -> None:
        self.wires, self.target, self.is_cut = wires, target, False
        self.listener = socket.create_server(("127.0.0.1", 0))
        self.listener.setblocking(False)
        self.port = self.listener.getsockname()[1]
        self.streams: dict[socket.socket, socket.socket] = {}
        wires.selector.register(self.listener, selectors.EVENT_READ, self.accept)

    def accept(self) -> None:
        near, _ = self.listener.accept()
        far = socket.socket()
        try:
            far.connect(("127.0.0.1", self.target))
        except OSError:
            near.close()
            return
        for stream, other in ((near, far), (far, near)):
            self.streams[stream] = other
            self.wires.selector.register(stream, selectors.EVENT_READ, lambda stream=stream: self.carry(stream))

    def carry(self, stream: socket.socket) -> None:
        other = self.streams[stream]
        try:
            piece = stream.recv(PIECE)
            if piece:
                other.sendall(piece)
                return
        except OSError:
            pass
        for one in (stream, other):
            self.streams.pop(one, None)
            with contextlib.suppress(KeyError, ValueError):
                self.wires.selector.unregister(one)
            one.close()


class Wires:
    """All wires, which a thread carries."""

    def __init__(self) -> None:
        self.selector = selectors.PollSelector()
        self.lock, self.wires = threading.Lock(), list[Wire]()
        self.reading, self.writing = os.pipe()
        self.is_open = True
        self.thread = threading.Thread(target=self.run, daemon=True)
        self.thread.start()

    def wire(self, target: int) -> Wire:
        with self.lock:
            self.wires.append(Wire(self, target))
            return self.wires[-1]

    def cut(self, wires: list[Wire], is_cut: bool = True) -> None:
        with self.lock:
            for wire in wires:
                wire.is_cut = is_cut

    def run(self) -> None:
        while self.is_open:
            with self.lock:
                held = {stream for wire in self.wires if wire.is_cut for stream in (wire.listener, *wire.streams)}
                for key, _ in self.selector.select(0.005) if self.selector.get_map() else []:
                    if key.fileobj not in held and self.selector.get_map().get(key.fd) == key:
                        key.data()
            threading.Event().wait(0.001)

    def close(self) -> None:
        self.is_open = False
        self.thread.join()
        for wire in self.wires:
            wire.listener.close()
            for stream in wire.streams:
                stream.close()
