"""The command `serve --cluster`."""

import argparse
import os
from pathlib import Path

from sched_jobs.basics import SECOND, Fault
from sched_jobs.cluster.node import Node, Settings
from sched_jobs.programs import program_named, wakes_by_signals
from sched_jobs.service.alarms import Alarms
from sched_jobs.service.loop import Loop
from sched_jobs.service.metrics import Metrics
from sched_jobs.service.orders import is_name

LEAST_LEASE, LONGEST_LEASE = 2, 3_600


def settings_of(asked: argparse.Namespace) -> Settings:
    """What the command line says of the node, or a Fault."""
    if not is_name(asked.name):
        raise Fault(f"cluster: --name is wanted, and {asked.name!r} is none")
    if asked.lease % SECOND or not LEAST_LEASE <= asked.lease // SECOND <= LONGEST_LEASE:
        raise Fault(f"cluster: a lease is {LEAST_LEASE} to {LONGEST_LEASE} whole seconds")
    folder, program = Path(os.path.abspath(asked.state)), os.path.abspath(program_named(asked.sched))
    return Settings(asked.name, folder, program, asked.cluster, asked.workers, asked.logs, asked.lease // SECOND)


def answer(asked: argparse.Namespace) -> int:
    """Serves as a node. At a fault what runs is left to the service behind this one, as it is where this one is killed."""
    signals, settings, loop = wakes_by_signals(), settings_of(asked), Loop()
    node = Node(settings, signals, loop, Alarms(asked.at_failure, loop), Metrics(asked.metrics or settings.folder / "metrics.prom"))
    try:
        node.serve()
    except BaseException:
        node.abandon()
        raise
    return 0
