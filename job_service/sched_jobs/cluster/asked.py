"""What is asked of a node: what it answers by itself, and to which logs the rest goes."""

from typing import TYPE_CHECKING

from sched_jobs.basics import Json
from sched_jobs.service import requests, views
from sched_jobs.service.requests import CHANGES, LOOKS, Refused, how_of

if TYPE_CHECKING:
    from sched_jobs.cluster.log import Log
    from sched_jobs.cluster.node import Node

SUMMED = ("lines", "running", "due", "late", "runs", "failed", "missed")


def is_change(word: str) -> bool:
    """Whether this is for the leader of a log."""
    return word in CHANGES


def parts_of(node: "Node", asked: Json) -> "list[tuple[Log, Json]]":
    """Which logs are asked, and what. The parts of a file are looked at before any is sent: as the logs stand here, each will do."""
    if asked["do"] != "reload":
        return [(node.log_of(asked.get("name")), asked)]
    if not isinstance(asked.get("tables"), dict):
        raise Refused("a file and its tables are wanted")
    parts = [(log, asked | {"tables": {name: table for name, table in asked["tables"].items() if node.log_of(name) is log}})
             for log in node.logs]
    for log, part in parts:
        requests.reload(log.replica, part)
    return parts


def merged(answers: list[Json]) -> Json:
    """One answer of several logs: the first error, or the sum of what they count."""
    errors = [answer for answer in answers if "error" in answer]
    if errors or len(answers) == 1:
        return (errors or answers)[0]
    return {word: sum(answer[word] for answer in answers) for word in answers[0]}


class Desk:
    """What a node answers by itself, as its logs stand here."""

    def __init__(self, node: "Node") -> None:
        self.node = node

    def answer(self, word: str, asked: Json) -> Json:
        if word == "show":
            return LOOKS[word](self.node.log_of(asked.get("name")).replica, asked).reply()
        if word == "list":
            return {"jobs": [job for log in self.node.logs for job in LOOKS[word](log.replica, asked).reply()["jobs"]]}
        if word == "stop":
            how = how_of(asked)
            self.node.leave(how)
            return {"running": sum(len(log.runs.attempts.processes()) for log in self.node.logs)}
        return self.status()

    def status(self) -> Json:
        node = self.node
        told = [views.of_service(log.replica.book, log.replica.clocks, node.workers, node.served_since) for log in node.logs]
        states: dict[str, int] = {}
        for one in told:
            for state, count in one["states"].items():
                states[state] = states.get(state, 0) + count
        nexts = [one["next"] for one in told if one["next"] is not None]
        return told[0] | {word: sum(one[word] for one in told) for word in SUMMED} | {
            "states": states, "latest": max(one["latest"] for one in told), "next": min(nexts, default=None), "node": node.name,
            "nodes": {member.name: member.workers for member in node.membership.members.values()},
            "logs": [{"leader": log.leader_name(), "group": log.replica.book.group, "lines": log.replica.book.lines,
                      "is_current": log.mirror.is_current} for log in node.logs],
            "etcd": node.gateway.fault if node.is_silent else None,
        }
