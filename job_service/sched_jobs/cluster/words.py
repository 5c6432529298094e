"""What a node says to who leads a log: that a run of its has ended, or what somebody asks of a job."""

from dataclasses import asdict, dataclass

from sched_jobs.basics import Json


@dataclass(frozen=True)
class End:
    """A run of this node has ended, which it was given at a revision of the log."""

    worker: int
    fence: int
    code: int
    attempts: int
    is_lost: bool


@dataclass(frozen=True)
class Ask:
    """Somebody asks something, and is answered by this name."""

    name: str
    asked: Json


Word = End | Ask


def as_json(word: Word) -> Json:
    return {"end" if isinstance(word, End) else "ask": asdict(word)}


def of_json(value: Json) -> Word:
    return End(**value["end"]) if "end" in value else Ask(**value["ask"])
