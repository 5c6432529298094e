#!/usr/bin/env python3
"""Talks to `sched run` through pipes, one event at a time, and shows that each answer comes before the next event is sent.

usage: python3 examples/one-delay/talk.py [PROGRAM]

PROGRAM is crates/sched/out/sched of this repository where none is named. The status is 0 where every answer came in time
and all of them together are trace.txt.
"""

import os
import select
import subprocess
import sys

HERE = os.path.dirname(os.path.abspath(__file__))
BUILT = os.path.join(HERE, "..", "..", "crates", "sched", "out", "sched")
SECONDS = 10


def lines_of(name):
    with open(os.path.join(HERE, name), encoding="ascii") as file:
        return file.read().splitlines(keepends=True)


def answers_by_event(trace):
    """Splits a trace after each line that answers an event: a line of a plan's call comes before one."""
    groups = [[]]
    for line in trace:
        groups[-1].append(line)
        if line.split()[1] != "submit":
            groups.append([])
    return groups[:-1]


def read_in_time(pipe, wanted):
    """Reads as many bytes as are wanted, or fewer where they don't come in time."""
    said = b""
    while len(said) < wanted and select.select([pipe], [], [], SECONDS)[0]:
        piece = os.read(pipe.fileno(), wanted - len(said))
        if not piece:
            break
        said += piece
    return said


def main():
    program = sys.argv[1] if len(sys.argv) > 1 else BUILT
    events, groups = lines_of("events.txt"), answers_by_event(lines_of("trace.txt"))
    assert len(events) == len(groups), "events.txt and trace.txt don't belong together"
    words = [program, "run", os.path.join(HERE, "plan.toml"), "--workers", "1"]
    with subprocess.Popen(words, stdin=subprocess.PIPE, stdout=subprocess.PIPE, bufsize=0) as sched:
        for event, group in zip(events, groups):
            print(">", event, end="")
            sched.stdin.write(event.encode())
            wanted = "".join(group).encode()
            said = read_in_time(sched.stdout, len(wanted))
            for line in said.decode().splitlines():
                print("<", line)
            if said != wanted:
                sched.kill()
                print(f"talk: the answer should have been {wanted!r}")
                return 1
        sched.stdin.close()
        rest = sched.stdout.read()
        status = sched.wait(SECONDS)
    if rest or status:
        print(f"talk: after the last event came {rest!r}, and status {status}")
        return 1
    print("talk: every answer came before the next event was sent")
    return 0


sys.exit(main())
