"""The commands that look: at jobs, at the service, and at what has ended."""

import argparse
import json
import shlex
import sys
import time

from sched_jobs.basics import SECOND, Json
from sched_jobs.client import ask
from sched_jobs.service.orders import TIMES
from sched_jobs.spans import write_span
from sched_jobs.store.entries import LOST_SIGHT, TAKEN_AS_OK


def moment(value: int | None) -> str:
    """A moment of the wall clock as people read it."""
    return "-" if value is None else time.strftime("%Y-%m-%d %H:%M:%S", time.localtime(value // SECOND))


def times_of(table: Json) -> str:
    """When a job runs, in words."""
    for word in TIMES:
        if word in table:
            zone = f" {table['timezone']}" if "timezone" in table else ""
            return f"{word} {table[word]}{zone}"
    return "at once"


def outcome_of(last: Json | None) -> str:
    if last is None:
        return "-"
    if not last["code"] or last["why"] == TAKEN_AS_OK:
        return "ok"
    return f"failed {last['code']}" + (" (not seen)" if last["why"] == LOST_SIGHT else "")


def told_job(answer: Json) -> str:
    job = answer["job"]
    when = f", next {moment(job['next'])}" if job["next"] is not None else ""
    return f"{job['name']}: {job['state']}{when}"


def rows(head: list[str], lines: list[list[str]]) -> str:
    """A table of texts."""
    widths = [max(len(line[place]) for line in [head, *lines]) for place in range(len(head))]
    return "\n".join("  ".join(text.ljust(width) for text, width in zip(line, widths)).rstrip() for line in [head, *lines])


def show_all(asked: argparse.Namespace) -> int:
    answer = ask(asked.state, {"do": "list", "all": asked.all})
    if asked.json:
        print(json.dumps(answer))
        return 0
    print(rows(["NAME", "STATE", "NEXT", "RUNS", "FAILED", "LAST", "WHEN"], [
        [job["name"], job["state"], moment(job["next"]), str(job["runs"]), str(job["failed"]), outcome_of(job["last"]),
         times_of(job["table"])] for job in answer["jobs"]]))
    return 0


def show(asked: argparse.Namespace) -> int:
    answer = ask(asked.state, {"do": "show", "name": asked.name})
    if asked.json:
        print(json.dumps(answer))
        return 0
    job = answer["job"]
    lines = [told_job(answer), f"  when: {times_of(job['table'])}", f"  command: {shlex.join(job['table']['command'])}"]
    lines += [f"  {key}: {value}" for key, value in job["table"].items() if key not in ("command", *TIMES)]
    lines += [f"  runs: {job['runs']}, failed {job['failed']}, missed {job['missed']}",
              f"  added: {moment(job['added'])} by {job['source']}"]
    lines += [f"  runs since {moment(run['start'])}: task {run['task']} run {run['run']}" for run in job["running"]]
    if job["last"] is not None:
        last = job["last"]
        took = write_span(last["end"] - last["start"])
        lines.append(f"  last: {outcome_of(last)} at {moment(last['end'])}, {took}, attempts {last['attempts']}")
    print("\n".join(lines))
    return 0


def status(asked: argparse.Namespace) -> int:
    told = ask(asked.state, {"do": "status"})
    if asked.json:
        print(json.dumps(told))
        return 0
    states = ", ".join(f"{count} {state}" for state, count in sorted(told["states"].items())) or "none"
    print(f"jobs: {states}\nrunning: {told['running']} of {told['workers']}\ndue: {told['due']}, late {told['late']}\n"
          f"runs: {told['runs']}, failed {told['failed']}, missed {told['missed']}\nnext: {moment(told['next'])}\n"
          f"since: {moment(told['since'])}, {told['lines']} lines")
    if "node" in told:
        print(of_the_cluster(told))
    return 0


def of_the_cluster(told: Json) -> str:
    """What a node says of the others."""
    nodes = ", ".join(f"{name} ({workers})" for name, workers in sorted(told["nodes"].items())) or "none"
    logs = [f"log {number}: {log['leader'] or 'nobody'} leads, group {log['group']}" + ("" if log["is_current"] else ", behind")
            for number, log in enumerate(told["logs"])]
    etcd = [f"etcd: no server answers: {told['etcd']}"] if told["etcd"] is not None else []
    return "\n".join([f"node: {told['node']} of {nodes}", *logs, *etcd])


def log(asked: argparse.Namespace) -> int:
    from sched_jobs.pages.history import ended_in
    found = [bar for bar in ended_in(asked.state) if asked.name in (None, bar.name)][-max(0, asked.lines):]
    for bar in found:
        if asked.json:
            print(json.dumps(bar.as_json()))
            continue
        print(f"{moment(bar.end)} {bar.name} task {bar.task} run {bar.run}: {bar.outcome} in {((bar.end or bar.start) - bar.start) / 1e6:.1f} ms, "
              f"{(bar.start - bar.due) / 1e6:.1f} ms late")
    return 0


def draw(asked: argparse.Namespace) -> int:
    from sched_jobs.pages import drawing
    text = drawing.page(asked.state, asked.last) if asked.page else drawing.picture(asked.state, asked.last)
    if asked.output is None:
        sys.stdout.write(text)
    else:
        asked.output.write_text(text)
    return 0
