"""A group of lines: what stands in the log under one key, and is appended by one transaction."""

import json
import zlib
from dataclasses import asdict, dataclass, field

from sched_jobs.basics import Fault, Json

# So many bytes at most are written under one key.
MOST_BYTES = 200_000


@dataclass(frozen=True)
class Group:
    """Lines for the executor behind so many, with what is noted of them and what was asked; whose mails are done with it, what is
    answered to whom, and whose runs are ended. `leader` is the revision of who wrote it, and `ahead` by how much the wall clock there
    showed more than the moments."""

    number: int
    leader: int
    after: int
    ahead: int
    lines: list[str] = field(default_factory=list)
    records: list[Json] = field(default_factory=list)
    heard: dict[str, str] = field(default_factory=dict)
    replies: dict[str, Json] = field(default_factory=dict)
    ends: list[str] = field(default_factory=list)

    def encoded(self) -> bytes:
        return zlib.compress(json.dumps(asdict(self), separators=(",", ":")).encode())

    def head(self, revision: int) -> Json:
        """The record that a replica keeps of it, beside the others."""
        return {"after": self.after, "group": self.number, "revision": revision, "leader": self.leader, "ahead": self.ahead,
                "heard": self.heard, "lines": self.lines}


def decoded(value: bytes) -> Group:
    try:
        return Group(**json.loads(zlib.decompress(value)))
    except (ValueError, TypeError, zlib.error) as error:
        raise Fault(f"the log has what is no group: {value[:40]!r}") from error
