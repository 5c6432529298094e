#!/usr/bin/env python3
"""Tries the service of jobs.

    job_service/tests/test.py [--short] [--only WORD] [PROGRAM]

PROGRAM is `sched`, as the service finds it where it is left out. Where it has no `live --journal`, `live_stand_in.py` keeps a journal
for it. Where etcd is there, nodes of a cluster are tried too. --short leaves out what takes minutes: it kills the service at each step once and at random a few times. WORD is a part of a
test's name. The last line is 'N passed, M failed', and the status is 0 exactly when M is 0.
"""

import argparse
import os
import sys
import traceback
from collections.abc import Callable, Iterator
from pathlib import Path

sys.dont_write_bytecode = True
HERE = Path(__file__).resolve().parent
sys.path[1:1] = [str(HERE / "service"), str(HERE / "cluster"), str(HERE.parent)]
import bad_words
import books
import calendar_times
import catching_up
import clock_changes
import commands
import documents
import endings
import kills
import nodes
import pictures
import pieces
import sockets_of
import stores
from sched_jobs.basics import Fault
from sched_jobs.programs import program_named

Checks = Iterator[tuple[str, bool]]
QUICK: list[Callable[[str], Checks]] = [
    *calendar_times.TESTS, *bad_words.TESTS, *books.TESTS, *catching_up.TESTS, *stores.TESTS, *commands.TESTS, *endings.TESTS,
    *clock_changes.TESTS, *sockets_of.TESTS, *pictures.TESTS, *documents.TESTS, *pieces.TESTS, *nodes.TESTS,
]
SHORT = [kills.at_each_step_once, kills.at_random_a_little, kills.power_cuts_a_few]
LONG = [kills.at_each_step, kills.at_random, kills.power_cuts]


def tried(test: Callable[[str], Checks], program: str) -> tuple[int, int]:
    """How many checks of a test passed, and failed."""
    try:
        results = list(test(program))
    except Exception:
        traceback.print_exc(file=sys.stdout)
        results = [("it came to its end", False)]
    for what in (what for what, good in results if not good):
        print(f"{test.__module__}.{test.__name__}: {what}: failed", flush=True)
    good = sum(bool(good) for _, good in results)
    return good, len(results) - good


def main() -> int:
    words = argparse.ArgumentParser(description=__doc__, formatter_class=argparse.RawDescriptionHelpFormatter)
    words.add_argument("--short", action="store_true")
    words.add_argument("--only", default="")
    words.add_argument("program", nargs="?")
    asked = words.parse_args()
    try:
        program = os.path.abspath(program_named(asked.program))
    except Fault as fault:
        print(f"test: {fault}: cd crates/sched && rt run -- --help\n0 passed, 1 failed")
        return 1
    passed = failed = 0
    for test in [*QUICK, *(SHORT if asked.short else LONG)]:
        if asked.only in f"{test.__module__}.{test.__name__}":
            good, bad = tried(test, program)
            passed, failed = passed + good, failed + bad
    print(f"{passed} passed, {failed} failed")
    return failed > 0


if __name__ == "__main__":
    sys.exit(main())
