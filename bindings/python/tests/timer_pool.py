"""What a pool of threads over timers does, by the machine's clock.

Of times the lower bounds alone are tested, which hold on a machine that is busy with something
else too. Where SCHED names the program `sched`, the traces of pools are checked with it; else that
is left out, which is told.
"""

import concurrent.futures
import datetime
import fractions
import gc
import queue
import random
import re
import sys
import threading
import time

from recorded_timers import Recorded, end_with_traces, found
from sched_timers import ScheduledThreadPoolExecutor
from sched_timers.timers import (NotASpanError, RejectedError, SpanError, SpanTooLongError,
                                 ZeroPeriodError)
from tried_pools import PATIENCE, held, pool_of, refuses, try_all, wait_until


def order():
    """Calls begin no sooner than they are due, and in the order of that."""
    with pool_of(1, Recorded) as pool:
        begun, first, going = [], time.monotonic(), held(pool)

        def note(place):
            begun.append((place, time.monotonic()))

        delays = [0.09, 0.03, 0.06, 0.03, 0.0, -5, 0.06, 0.03]
        futures = [pool.schedule(delay, note, place) for place, delay in enumerate(delays)]
        going.set()
        concurrent.futures.wait(futures, PATIENCE)
        lines = pool._workers.timers.words()
        dues = [int(words[-1]) for words in lines if words[1] == "submit"][1:]
        assert [place for place, _ in begun] == sorted(range(len(delays)), key=dues.__getitem__)
        assert all(moment >= first + max(delays[place], 0) for place, moment in begun)


def sooner():
    """A call that is due sooner is not kept waiting by a leader that waits for a later one,
    however many workers there are."""
    for workers in (1, 2, 5):
        with pool_of(workers) as pool:
            far = pool.schedule(3600, print)
            time.sleep(0.02)
            for delay in (0.02, 0.01, 0.0, 0.03):
                begun = time.monotonic()
                assert pool.schedule(delay, time.monotonic).result(PATIENCE) >= begun + delay
            assert not far.done()


def beside():
    """A heartbeat goes on beside a call that is due much later, for which another worker leads
    while the heart beats."""
    for workers in (1, 2, 3):
        with pool_of(workers) as pool:
            beats = []

            def beat(pool=pool, beats=beats, workers=workers):
                begun = time.monotonic()
                sleepers = pool._workers.sleepers
                wait_until(lambda: sleepers.leader is not None or workers == 1 or len(beats) >= 5)
                beats.append(begun)

            far, first = pool.schedule(3600, print), time.monotonic()
            pool.schedule_at_fixed_rate(0.01, 0.01, beat)
            wait_until(lambda beats=beats: len(beats) >= 5)
            assert all(moment >= first + 0.01 + 0.01 * run for run, moment in enumerate(beats))
            assert not far.done()


def together():
    """As many calls as there are workers run at a time: each waits here until all of them have
    begun."""
    for workers in (2, 7):
        with pool_of(workers) as pool:
            for delay in (0.02, 0.0):
                barrier = threading.Barrier(workers)
                futures = [pool.schedule(delay, barrier.wait, PATIENCE) for _ in range(workers)]
                places = sorted(future.result(PATIENCE) for future in futures)
                assert places == list(range(workers))


def rates():
    """Runs at a fixed rate begin no sooner than they are due, make up for a late one, and do not
    overlap."""
    with pool_of(4, Recorded) as pool:
        begun, busy, first = [], threading.Lock(), time.monotonic()

        def beat():
            assert busy.acquire(blocking=False)
            begun.append(time.monotonic())
            if len(begun) == 2:
                time.sleep(0.1)
            busy.release()

        future = pool.schedule_at_fixed_rate(0.02, 0.01, beat)
        wait_until(lambda: len(begun) >= 15)
        assert future.cancel() and future.cancelled()
        assert all(moment >= first + 0.02 + 0.01 * run for run, moment in enumerate(begun)), begun
        starts = [words for words in pool._workers.timers.words()
                  if words[1] == "start" and words[3:5] == ["task", "0"]]
        dues = [int(words[-1]) for words in starts]
        assert [due - dues[0] for due in dues] == [10_000_000 * run for run in range(len(dues))]
        late = [int(words[0]) - int(words[-1]) for words in starts]
        assert min(late) >= 0 and late[2] >= 80_000_000 and late[3] >= 70_000_000, late


def delays():
    """Runs with a fixed delay begin no sooner than that after the end of the one before."""
    with pool_of(2) as pool:
        begun, ended, first = [], [], time.monotonic()

        def step(pause, *, ends):
            begun.append(time.monotonic())
            time.sleep(pause)
            ends.append(time.monotonic())

        future = pool.schedule_with_fixed_delay(0.01, 0.02, step, 0.01, ends=ended)
        wait_until(lambda: len(ended) >= 4)
        future.cancel()
        assert begun[0] >= first + 0.01
        assert all(later >= end + 0.02 for end, later in zip(ended, begun[1:]))
        assert refuses(concurrent.futures.CancelledError, future.result) is not None


def withdraws():
    """A cancel of a future in each state."""
    with pool_of(2) as pool:
        told, going, begun = [], threading.Event(), threading.Event()

        def hold(answer):
            begun.set()
            going.wait(PATIENCE)
            return answer

        waiting = pool.schedule(3600, print)
        waiting.add_done_callback(told.append)
        assert waiting.cancel() and waiting.cancel() and waiting.cancelled() and told == [waiting]
        assert pool.counts().queue == 0
        assert concurrent.futures.wait([waiting], PATIENCE).done == {waiting}
        running = pool.submit(hold, 7)
        begun.wait(PATIENCE)
        assert not running.cancel() and running.running() and not running.done()
        begun.clear()
        again = pool.schedule_at_fixed_rate(0, 0.001, hold, 8)
        begun.wait(PATIENCE)
        assert again.cancel() and again.cancel() and again.cancelled()
        assert pool.counts().running == 2
        begun.clear()
        going.set()
        assert running.result(PATIENCE) == 7 and not running.cancel() and running.result() == 7
        failed = pool.submit(int, "x")
        assert isinstance(failed.exception(PATIENCE), ValueError) and not failed.cancel()
        between = pool.schedule_at_fixed_rate(0, 3600, begun.set)
        begun.wait(PATIENCE)
        wait_until(lambda: pool.counts().running == 0)
        assert pool.counts().queue == 1 and not between.done() and between.cancel()
        assert pool.counts().queue == 0
        time.sleep(0.02)
        assert not again.running() and pool.counts() == (0, 0, False, False)


def timeouts():
    """Ten thousand timeouts, of which 99 of 100 are cancelled: the others come, no sooner than
    they are due, and none that was."""
    with pool_of(2) as pool:
        come, left, dues = [], [], []

        def note(place):
            come.append((place, time.monotonic()))

        for first in range(0, 10_000, 100):
            dues.append(time.monotonic() + 1)
            batch = [pool.schedule(1, note, place) for place in range(first, first + 100)]
            assert all(future.cancel() for future in batch[1:])
            assert pool.counts().queue <= len(dues)
            left.append(batch[0])
        concurrent.futures.wait(left, PATIENCE)
        time.sleep(0.01)
        come.sort()
        assert [place for place, _ in come] == list(range(0, 10_000, 100))
        assert all(future.done() for future in left)
        assert all(moment >= due for due, (_, moment) in zip(dues, come))


def jobs_that_call():
    """Jobs submit and cancel, the callbacks of futures too; and a chain of jobs, each of which
    submits the next one."""
    with pool_of(2) as pool:
        far = pool.schedule(3600, print)
        assert pool.submit(far.cancel).result(PATIENCE) and far.cancelled()
        inner = pool.submit(pool.schedule, 0.01, pow, 2, 5).result(PATIENCE)
        assert inner.result(PATIENCE) == 32
        ended = threading.Event()

        def step(left):
            if left:
                pool.schedule(0.0001, step, left - 1)
            else:
                ended.set()

        step(200)
        assert ended.wait(PATIENCE)
        followed = threading.Event()
        pool.schedule(0.01, int).add_done_callback(lambda _: pool.schedule(0.01, followed.set))
        assert followed.wait(PATIENCE)
        named = pool.schedule(0, dict, delay=1, fn=2, self=3)
        assert named.result(PATIENCE) == {"delay": 1, "fn": 2, "self": 3}
        beats, itself = [], queue.SimpleQueue()

        def stop_at_three():
            beats.append(len(beats))
            if len(beats) == 3:
                itself.get().cancel()

        pulse = pool.schedule_at_fixed_rate(0.01, 0.001, stop_at_three)
        itself.put(pulse)
        concurrent.futures.wait([pulse], PATIENCE)
        time.sleep(0.01)
        assert beats == [0, 1, 2] and pulse.cancelled()
        squares = [number * number for number in range(50)]
        assert list(pool.map(pow, range(50), [2] * 50)) == squares


def callbacks():
    """Callbacks are called without the lock, whoever ends a future: another thread may use the
    pool meanwhile."""
    ended = []

    def look(future):
        other = threading.Thread(target=pool.counts)
        other.start()
        other.join(PATIENCE)
        ended.append(not other.is_alive())

    with pool_of(2) as pool:
        for future in (pool.submit(int), pool.submit(int, "x"), pool.schedule(3600, int)):
            future.add_done_callback(look)
        future.cancel()
        begun, going = threading.Event(), threading.Event()
        pulse = pool.schedule_at_fixed_rate(0, 1, lambda: (begun.set(), going.wait(PATIENCE)))
        pulse.add_done_callback(look)
        begun.wait(PATIENCE)
        pool.schedule_at_fixed_rate(3600, 1, int).add_done_callback(look)
        pool.schedule(3600, int).add_done_callback(look)
        pool.shutdown(wait=False)
        pool.executes_delayed = False
        going.set()
        assert pool.await_termination(PATIENCE) and ended == [True] * 6, ended


def shutdowns():
    """What a shutdown leaves, by each policy, and at once."""
    for continues, executes in [(False, True), (False, False), (True, True), (True, False)]:
        with pool_of(2) as pool:
            pool.continues_periodic, pool.executes_delayed = continues, executes
            assert (pool.continues_periodic, pool.executes_delayed) == (continues, executes)
            beats = []
            delayed = pool.schedule(0.05 if executes else 3600, pow, 2, 3)
            pulse = pool.schedule_at_fixed_rate(0.02 if continues else 3600, 0.02, beats.append, 1)
            pool.shutdown(wait=False)
            assert pool.is_shutdown and delayed.cancelled() is not executes
            assert pulse.cancelled() is not continues
            refuses(RuntimeError, pool.submit, print)
            refuses(RuntimeError, pool.schedule, 1, print)
            refuses(RuntimeError, pool.schedule_at_fixed_rate, 1, 1, print)
            refuses(RuntimeError, pool.schedule_with_fixed_delay, 1, 1, print)
            if executes:
                assert delayed.result(PATIENCE) == 8
            if continues:
                wait_until(lambda beats=beats: len(beats) >= 3)
                assert not pool.is_terminated and not pulse.done()
                pool.continues_periodic = False
                concurrent.futures.wait([pulse], PATIENCE)
            assert pulse.cancelled() and pool.await_termination(PATIENCE)
    with pool_of(1) as pool:
        begun, going = threading.Event(), threading.Event()
        running = pool.submit(lambda: (begun.set(), going.wait(PATIENCE)))
        begun.wait(PATIENCE)
        due, far = pool.submit(print), pool.schedule(3600, print)
        pulse = pool.schedule_at_fixed_rate(0, 1, print)
        pool.shutdown(wait=False, cancel_futures=True)
        assert due.cancelled() and far.cancelled() and pulse.cancelled() and not running.done()
        assert concurrent.futures.wait([due, far, pulse], 0).not_done == set()
        going.set()
        assert pool.await_termination(PATIENCE) and running.result(0)[1]


def last_cancel():
    """A pool that is shut ends with a cancel of the last task that waits, and so with a policy
    that ends it."""
    with pool_of(3) as pool:
        far = pool.schedule(3600, print)
        pool.shutdown(wait=False)
        assert not pool.await_termination(0.05) and far.cancel()
        assert pool.await_termination(PATIENCE)
    with pool_of(3) as pool:
        far = pool.schedule(3600, print)
        pool.shutdown(wait=False)
        pool.executes_delayed = False
        assert far.cancelled() and pool.await_termination(PATIENCE)
    with ScheduledThreadPoolExecutor(2) as pool:
        late = pool.schedule(0.05, pow, 3, 2)
    assert pool.is_terminated and late.result(0) == 9


def endless():
    """A job that does not end holds up the end of a pool, until it does."""
    with pool_of(2) as pool:
        begun, going = threading.Event(), threading.Event()
        job = pool.submit(lambda: (begun.set(), going.wait(PATIENCE)))
        begun.wait(PATIENCE)
        first = time.monotonic()
        assert not pool.await_termination(0.05) and time.monotonic() >= first + 0.05
        pool.shutdown(wait=False)
        assert not pool.await_termination(0) and not pool.await_termination(0.05)
        assert not pool.is_terminated and pool.is_shutdown
        going.set()
        assert pool.await_termination(PATIENCE) and pool.is_terminated and job.done()
        assert isinstance(refuses(RuntimeError, pool.submit, print), RejectedError)


def slow():
    """What is due while the one worker is busy comes after that, all of it, in the order in which
    it was due."""
    with pool_of(1, Recorded) as pool:
        ran, going = [], held(pool)
        pulse = pool.schedule_at_fixed_rate(0.001, 0.01, int)
        futures = [pool.schedule(0.04 - place / 1000, ran.append, place) for place in range(40)]
        time.sleep(0.1)
        going.set()
        concurrent.futures.wait(futures, PATIENCE)
        pulse.cancel()
        dues = [int(words[-1]) for words in pool._workers.timers.words()
                if words[1] == "start" and words[3] == "task"]
        assert sorted(ran) == list(range(40)) and dues == sorted(dues) and len(dues) >= 1 + 4 + 40


def failures():
    """An exception of a job stands in its future, and a task that runs again and again ends with
    it."""
    with pool_of(2) as pool:
        class Unusual(BaseException):
            """No Exception."""

        def fail_at_three():
            beats.append(len(beats))
            if len(beats) == 3:
                raise Unusual("three")

        beats = []
        third = pool.schedule_at_fixed_rate(0, 0.001, fail_at_three)
        for future in (third, pool.schedule_with_fixed_delay(0, 0.001, divmod, 1, 0)):
            assert isinstance(future.exception(PATIENCE), Unusual | ZeroDivisionError)
            assert not future.cancelled()
            assert not future.cancel()
        time.sleep(0.01)
        assert beats == [0, 1, 2]
        assert isinstance(pool.submit(sys.exit, 3).exception(PATIENCE), SystemExit)
        refuses(ZeroDivisionError, pool.schedule(0.001, divmod, 1, 0).result, PATIENCE)
        assert pool.submit(pow, 2, 3).result(PATIENCE) == 8


def spans():
    """A span that is too long, too short or no number is refused, in the words of the caller. One
    below 0 counts as 0."""
    longest = "4611686018.427387904 seconds, which are 2^62 nanoseconds"
    with pool_of(2) as pool:
        calls = [pool.schedule, lambda span, call: pool.schedule_at_fixed_rate(span, 1, call),
                 lambda span, call: pool.schedule_at_fixed_rate(1, span, call),
                 lambda span, call: pool.schedule_with_fixed_delay(1, span, call)]
        for span, shown in [
            (1e12, "1000000000000.0"), (1e300, "1e+300"), (float("inf"), "inf"),
            (4611686019, "4611686019"), (10**400, "2**1328 or more"),
            (10**5000, "2**16609 or more"), (fractions.Fraction(10**11), "100000000000"),
        ]:
            for call in calls:
                refused = refuses(SpanTooLongError, call, span, print)
                assert isinstance(refused, SpanError) and isinstance(refused, ValueError)
                assert refused.span == span
                wanted = f"a span of {shown} seconds is above the longest, {longest}"
                assert str(refused) == wanted, refused
        for call in calls:
            refused = refuses(NotASpanError, call, float("nan"), print)
            assert str(refused) == "nan seconds are no span" and isinstance(refused, ValueError)
        for period in (0, -1, 1e-10, float("-inf")):
            for call in calls[2:]:
                refused = refuses(ZeroPeriodError, call, period, print)
                assert str(refused) == (f"a period, or a delay between runs, of {period} seconds "
                                        "is less than 1 nanosecond")
        assert pool.counts() == (0, 0, False, False)
        for delay in (-1, -1e300, -10**400, float("-inf"), 0, 1e-12, fractions.Fraction(-1, 3)):
            assert pool.schedule(delay, pow, 2, 3).result(PATIENCE) == 8
        assert pool.schedule(4611686018, print).cancel()


def remaining():
    """How long a task waits still: below 0 where its run is late or under way, and None once it is
    over."""
    with pool_of(1) as pool:
        far = pool.schedule(3600, print)
        assert 3590 < far.remaining() <= 3600
        going = held(pool)
        late = pool.schedule(0.001, print, end="")
        wait_until(lambda: late.remaining() < 0)
        pulse = pool.schedule_at_fixed_rate(0.001, 3600, print, end="")
        wait_until(lambda: pulse.remaining() < 0)
        going.set()
        wait_until(lambda: pulse.remaining() > 3000)
        assert late.result(PATIENCE) is None and late.remaining() is None
        for future in (far, pulse):
            assert future.cancel() and future.remaining() is None
        begun, going = threading.Event(), threading.Event()
        running = pool.submit(lambda: (begun.set(), going.wait(PATIENCE)))
        begun.wait(PATIENCE)
        assert running.remaining() <= 0
        going.set()
        assert running.result(PATIENCE) and running.remaining() is None


def kinds():
    """What is no number, no call or no flag is refused, and leaves no task; a bool is no number.
    How a pool is shown."""
    with pool_of(2) as pool:
        for call, *words in [
            (pool.schedule, "1"), (pool.schedule, None), (pool.schedule, True),
            (pool.schedule_at_fixed_rate, 1, "1"), (pool.schedule_at_fixed_rate, False, 1),
            (pool.schedule_with_fixed_delay, 1, True),
            (pool.schedule, datetime.timedelta(seconds=1)),
        ]:
            refused = refuses(TypeError, call, *words, print)
            assert str(refused).startswith("a number of seconds is wanted, not "), refused
        for call, *words in [(pool.submit, 5), (pool.schedule, 1, None), (pool.submit,)]:
            refuses(TypeError, call, *words)
        refuses(TypeError, setattr, pool, "continues_periodic", 1)
        assert pool.counts() == (0, 0, False, False) and not pool._workers.jobs
        assert not pool.continues_periodic
        shown = "'ScheduledThreadPoolExecutor-[0-9]+' workers=2 tasks=0"
        assert re.fullmatch(f"<ScheduledThreadPoolExecutor {shown}>", repr(pool)), pool
        pool.shutdown()
        assert re.fullmatch(f"<ScheduledThreadPoolExecutor {shown} shut>", repr(pool)), pool
    for workers in (0, 65, -1):
        refuses(ValueError, ScheduledThreadPoolExecutor, workers)
    for workers in (1.5, "2", True):
        refuses(TypeError, ScheduledThreadPoolExecutor, workers)


def drops():
    """A pool keeps nothing of a job that is over: neither what it was called with, nor its
    failure."""
    class Kept:
        """What can be counted."""
        alive = 0

        def __init__(self):
            Kept.alive += 1

        def __del__(self):
            Kept.alive -= 1

        def fail(self):
            """Fails, with itself in the traceback."""
            raise ValueError(self)

    with pool_of(2) as pool:
        gc.disable()
        pool.submit(id, Kept()).result(PATIENCE)
        pool.schedule(3600, id, Kept()).cancel()
        pool.submit(Kept().fail).exception(PATIENCE)
        wait_until(lambda: Kept.alive == 0)
        gc.enable()


def idle():
    """Workers that wait do not look again and again."""
    with pool_of(8, Recorded) as pool:
        far = pool.schedule(3600, print)
        pool.schedule(0.3, int).result(PATIENCE)
        assert pool._workers.timers.polls <= 8 * 4, pool._workers.timers.polls
        far.cancel()


def storm(pool, clients, turns):
    """Threads submit and cancel at random. Each job runs once, or its future is cancelled. Answers
    how many were cancelled."""
    counts = [0] * (clients * turns)
    futures = [None] * (clients * turns)

    def count(place):
        counts[place] += 1

    def use(client):
        chance = random.Random(client)
        for place in range(client * turns, (client + 1) * turns):
            delay = chance.choice([0, 0.0001, 0.001, 0.01, 0.05])
            futures[place] = pool.schedule(delay, count, place)
            if chance.random() < 0.5:
                futures[chance.randrange(client * turns, place + 1)].cancel()

    users = [threading.Thread(target=use, args=(client,)) for client in range(clients)]
    for user in users:
        user.start()
    for user in users:
        user.join()
    assert concurrent.futures.wait(futures, PATIENCE).not_done == set()
    assert [future.cancelled() for future in futures] == [count == 0 for count in counts]
    assert max(counts) == 1
    return counts.count(0)


def storms():
    """Many threads use a pool of many workers."""
    switch = sys.getswitchinterval()
    sys.setswitchinterval(1e-5)
    with pool_of(8) as pool:
        assert 0 < storm(pool, 8, 400) < 8 * 400
    sys.setswitchinterval(switch)


def traced(workers, continues):
    """The timers of a pool that was used in each way, and then shut down."""
    with pool_of(workers, Recorded) as pool:
        pool.continues_periodic = continues
        pulse = pool.schedule_at_fixed_rate(0.001, 0.002, time.monotonic)
        pool.schedule_with_fixed_delay(0.001, 0.002, time.sleep, 0.001)
        pool.schedule_at_fixed_rate(0.01, 0.001, divmod, 1, 0)
        storm(pool, 4, 50)
        refuses(ZeroDivisionError, pool.submit(divmod, 1, 0).result, PATIENCE)
        pulse.cancel()
        late = pool.schedule(0.02, int)
        pool.schedule(3600, print)
        pool.counts()
        pool.shutdown(wait=False)
        refuses(RuntimeError, pool.submit, print)
        late.result(PATIENCE)
        pool.executes_delayed = False
    return pool._workers.timers


def traces(program):
    """The traces of pools are those of the one history that their calls allow; and one with a line
    less is not."""
    for workers, continues in [(1, False), (4, True)]:
        timers = traced(workers, continues)
        trace = "".join(timers.trace)
        answer = found(program, timers, trace)
        assert answer == "conforms\n", answer
        lines = trace.splitlines(keepends=True)
        start = next(place for place, line in enumerate(lines)
                     if " start " in line and " task " in line)
        less = "".join(lines[:start] + lines[start + 1:])
        assert found(program, timers, less).startswith("breaks ")


try_all(order, sooner, beside, together, rates, delays, withdraws, timeouts, jobs_that_call,
        callbacks, shutdowns, last_cancel, endless, slow, failures, spans, kinds, remaining, drops,
        idle, storms)
end_with_traces(traces)
