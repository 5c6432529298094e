"""The command `serve`."""

import argparse
import os
from pathlib import Path

from sched_jobs.programs import program_named, wakes_by_signals
from sched_jobs.service.alarms import Alarms
from sched_jobs.service.beginning import begin
from sched_jobs.service.daemon import Daemon
from sched_jobs.service.loop import Loop
from sched_jobs.service.metrics import Metrics


def answer(asked: argparse.Namespace) -> int:
    """Serves. At a fault what runs is left to the service behind this one, as it is where this one is killed."""
    if asked.cluster is not None:
        from sched_jobs.cluster import serving
        return serving.answer(asked)
    signals = wakes_by_signals()
    program = os.path.abspath(program_named(asked.sched))
    folder = Path(os.path.abspath(asked.state))
    stand = begin(folder, program, asked.workers)
    try:
        loop, metrics = Loop(), Metrics(asked.metrics or folder / "metrics.prom")
        Daemon(stand, asked.workers, signals, loop, Alarms(asked.at_failure, loop), metrics).serve()
    except BaseException:
        stand.engine.abandon()
        raise
    return 0
