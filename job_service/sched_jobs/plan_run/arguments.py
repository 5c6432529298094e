"""What the command line of a run of a plan has."""

import argparse

from sched_jobs.local_times import FORMS, When, read_when
from sched_jobs.programs import worker_count

ABOUT = "Runs real jobs by a plan of sched, as the machine's clock goes."


def when(text: str) -> When:
    try:
        return read_when(text)
    except ValueError as error:
        raise argparse.ArgumentTypeError(str(error)) from error


def add_arguments(parser: argparse.ArgumentParser) -> None:
    """Adds the options of a run."""
    parser.add_argument("plan", metavar="PLAN", help="the plan, a file as 'sched run' takes it")
    parser.add_argument("jobs", metavar="JOBS", help="a file of TOML: for each name of a task its command and timeout_s")
    parser.add_argument("--workers", metavar="N", type=worker_count, required=True, help="how many jobs run at a time, 1 to 64")
    parser.add_argument("--start-at", metavar="WHEN", type=when, help=f"when the plan starts, {FORMS}; now where left out")
    parser.add_argument("--trace", metavar="FILE", default="trace.txt", help="the trace's file, trace.txt where left out")
    parser.add_argument("--sched", metavar="PROGRAM", help="the program 'sched', the built one or the PATH's where left out")
