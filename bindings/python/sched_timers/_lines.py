"""The lines by which a library answers."""

from __future__ import annotations

import ctypes

from sched_timers._library import Slotted

LINE_ROOM = 128
ROOM = 512 * LINE_ROOM


class Copied(ctypes.Structure):
    """What of a text was copied."""

    _fields_ = [("lines", ctypes.c_size_t), ("bytes", ctypes.c_size_t)]


class Lined(Slotted):
    """What answers in lines."""

    def text(self) -> bytes:
        """The text of the lines that answer the last call or event."""
        room, parts, next_line = (ctypes.c_char * ROOM)(), [], 0
        copied = Copied(1, 0)
        while copied.lines > 0:
            self._tell("text", next_line, room, ROOM, copied)
            parts.append(ctypes.string_at(room, copied.bytes))
            next_line += copied.lines
        return b"".join(parts)

    def lines(self) -> list[str]:
        """The lines that answer the last call or event, without their newlines."""
        return self.text().decode("ascii").splitlines()
