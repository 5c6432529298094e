"""Runs real jobs by a plan of `sched`, as the machine's clock goes.

    sched-jobs run PLAN JOBS --workers N [--start-at WHEN] [--trace FILE] [--sched PROGRAM]

PLAN is a plan of `sched`. Its moments count from the runner's start, or from WHEN, a time of the wall clock for which it
waits: HH:MM[:SS], the next time that it is so, or YYYY-MM-DD HH:MM[:SS]. JOBS is a file of TOML 1.0: a table for the name
of each task of the plan, and no other. The first two keys have to be there.

    [backup]
    command = ["tar", "-cf", "x.tar", "x"]   # a program and its arguments, which no shell reads
    timeout_s = 30                           # seconds, whole or not, above 0: for each attempt
    on_failure = "go_on"                     # a run that failed counts as `ok` with its status; "stop" where left out
    retries = 2                              # attempts of a run after one that failed; 0 where left out
    retry_pause_s = 10                       # seconds between attempts; 1 where left out
    directory = "data"                       # where the command starts; the runner's folder where left out
    environment = { LANG = "C" }             # added to the runner's own
    output = "backup.log"                    # the end of this file gets what the job writes, under a header for each attempt
    on_cancel = "end"                        # a cancel ends a run that is under way; "wait" where left out

A run whose command ends with status 0 is given as `finish W ok 0`, any other as `finish W fail C`, or `finish W ok C` where
it goes on. C is

    1 to 255   the status of the command, and 128 + S where signal S ended it
    124        it hung: at its timeout its process group gets SIGTERM, and SIGKILL a second later
    126, 127   it could not be started, and 127 where its program is not there

Where there are too few descriptors or processes a job waits for them. Standard input takes lines `cancel NAME`: each task
of that name that waits or runs is cancelled. A run that is under way goes on to the end of its attempt, or is ended as at a
timeout where its job says so. At SIGTERM or SIGINT no work is taken any more, and what runs is waited for; at another one all
that runs is ended.

The trace is written to FILE.part as it grows, and becomes FILE at the end (trace.txt where it is left out). Another runner with
the same FILE does not begin. Standard error gets a line for each run and for each task that is refused, and `runs N, failed M`
at the end, with `, refused K` where some were. PROGRAM is crates/sched/out/sched of this repository where it is left out, or
`sched` on the path where that is not there. Jobs have no standard input, and write where the runner writes.

The runner ends once the plan has no call to come, no task waits and none runs, or after a signal. Its status is 3 where a run
failed, else 4 where a task was refused, and else 0; 1 at a fault, which a line on standard error names, and 2 at a fault of the
command line.
"""

import argparse
import os

from sched_jobs.basics import Fault, tell
from sched_jobs.jobs import keep_outputs_from, read_jobs, read_source
from sched_jobs.local_times import shown
from sched_jobs.plan_run.executor import Executor
from sched_jobs.plan_run.loop import Runner
from sched_jobs.plan_run.plans import read_plan
from sched_jobs.plan_run.start import Start, start_at
from sched_jobs.plan_run.traces import LOCK, Trace
from sched_jobs.programs import program_named, wakes_by_signals

DONE, FAULT, FAILED, REFUSED = 0, 1, 3, 4


def keep_apart(asked: argparse.Namespace) -> None:
    """The trace is written in place of its file, and the lock is taken away."""
    read = [os.path.realpath(file) for file in (asked.plan, asked.jobs)]
    for written in (asked.trace, asked.trace + LOCK):
        if os.path.realpath(written) in read:
            raise Fault(f"trace: {written!r} is the plan or the jobs")


def serve(asked: argparse.Namespace) -> int:
    """Does what is asked for, and answers the status. All that is read is looked at before the trace is begun."""
    start = None if asked.start_at is None else start_at(asked.start_at)
    signals = wakes_by_signals()
    program = program_named(asked.sched)
    keep_apart(asked)
    names, calls = read_plan(program, asked.plan)
    source = read_source(asked.jobs)
    jobs = read_jobs(source, set(names))
    trace = Trace(asked.trace)
    try:
        keep_outputs_from((asked.plan, asked.jobs, trace.path, trace.part, trace.lock), jobs, source)
        executor = Executor(program, os.path.abspath(asked.plan), asked.workers, trace)
        return run(Runner(executor, names, calls, jobs, signals), start)
    except Fault as fault:
        raise Fault(f"{fault}{trace.rest()}") from fault
    finally:
        trace.free()


def run(runner: Runner, start: Start | None) -> int:
    """Runs the plan, and tells what came of it."""
    if start is not None:
        tell(f"starts at {shown(start.moment)}")
    try:
        if runner.run(start):
            runner.executor.close()
    finally:
        runner.end_all()
        runner.executor.abandon()
    tell(f"runs {runner.runs}, failed {runner.failed}" + (f", refused {runner.refused}" if runner.refused else ""))
    return FAILED if runner.failed else REFUSED if runner.refused else DONE


def answer(asked: argparse.Namespace) -> int:
    """Does what is asked for, and tells a fault."""
    try:
        return serve(asked)
    except (Fault, OSError) as fault:
        tell(f"runner: {fault}")
        return FAULT
