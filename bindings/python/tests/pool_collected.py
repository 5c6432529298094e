"""What a pool does where garbage is collected in the midst of its calls, and a `__del__` calls it.

The timers of these pools make such a call themselves, at a place that the test chooses: behind a
call of the library, while the pool's lock is held.
"""

import concurrent.futures
import threading

from tried_pools import PATIENCE, held, pool_of, refuses, try_all, wait_until
from sched_timers.timers import Timers

HOUR = 3600


class Collecting(Timers):
    """Timers behind whose next call of a name a `__del__` is run, which makes this call."""

    def __init__(self, workers):
        self.calls, self.answers = {}, []
        super().__init__(workers)

    def _call(self, name, *words):
        status = super()._call(name, *words)
        if call := self.calls.pop(name, None):
            self.answers.append(call())
        return status


def collects(pool, name, call):
    """Has a `__del__` make a call behind the next call of this name; what that answers comes into
    the list that is answered."""
    pool._workers.timers.calls[name] = call
    return pool._workers.timers.answers


def cancels_as_tasks_end():
    """Each task that a shutdown ends is told, though one of them is cancelled as they are asked
    for."""
    with pool_of(2, Collecting) as pool:
        far = [pool.schedule(HOUR, print) for _ in range(5)]
        told = []
        for future in far:
            future.add_done_callback(told.append)
        answers = collects(pool, "ended", far[3].cancel)
        pool.shutdown(wait=False, cancel_futures=True)
        assert concurrent.futures.wait(far, 1).not_done == set()
        assert answers == [True] and all(future.cancelled() for future in far)
        assert sorted(map(id, told)) == sorted(map(id, far))


def asks_as_tasks_end():
    """Nor does a question, another shutdown or a submission keep one from being told."""
    for call, wanted in [(lambda pool: pool.counts().running, 1),
                         (lambda pool: pool.shutdown(wait=False), None),
                         (lambda pool: pool.submit(print).cancel(), True)]:
        with pool_of(2, Collecting) as pool:
            going = held(pool)
            far = [pool.schedule(HOUR, print) for _ in range(5)]
            answers = collects(pool, "ended", lambda pool=pool, call=call: call(pool))
            pool.shutdown(wait=False, cancel_futures=True)
            assert concurrent.futures.wait(far, 1).not_done == set()
            assert answers == [wanted], answers
            going.set()


def cancels_at_each_call():
    """A cancel in the midst of any call has its effect, and who waits for the future is told once
    that call is through, without the lock."""
    for name in ("execute", "schedule", "poll", "next_due", "state_of", "cancel", "ask"):
        with pool_of(1, Collecting) as pool:
            lock, free = pool._workers.lock, []
            far, other = pool.schedule(HOUR, print), pool.schedule(HOUR, print)
            far.add_done_callback(lambda _, lock=lock, free=free: free.append(not lock.is_mine()))
            answers = collects(pool, name, far.cancel)
            pool.schedule(0.001, int).result(PATIENCE)
            assert pool.submit(pow, 2, 3).result(PATIENCE) == 8
            other.cancel()
            pool.counts()
            refuses(concurrent.futures.CancelledError, far.result, PATIENCE)
            assert answers == [True] and far.remaining() is None
            wait_until(lambda free=free: free == [True])
            assert pool.counts().queue == 0


def cancels_what_begins():
    """What is cancelled as its run begins does not run."""
    with pool_of(1, Collecting) as pool:
        begun, going = [], held(pool)
        future = pool.submit(begun.append, "run")
        answers = collects(pool, "poll", future.cancel)
        going.set()
        refuses(concurrent.futures.CancelledError, future.result, PATIENCE)
        assert begun == [] and answers == [True]


def cancels_what_ends():
    """What is cancelled as a run of it ends, well or not, is told that it is cancelled."""
    for name in ("finish", "fail"):
        with pool_of(1, Collecting) as pool:
            begun, going = threading.Event(), threading.Event()

            def run(begun=begun, going=going, name=name):
                begun.set()
                going.wait(PATIENCE)
                if name == "fail":
                    raise ValueError

            pulse = pool.schedule_at_fixed_rate(0, 0.001, run)
            assert begun.wait(PATIENCE)
            answers = collects(pool, name, pulse.cancel)
            going.set()
            refuses(concurrent.futures.CancelledError, pulse.result, PATIENCE)
            assert answers == [True]
            wait_until(lambda pool=pool: pool.counts()[:2] == (0, 0))


def submits():
    """A submission comes to its run, or is refused by its future, or was cancelled before."""
    with pool_of(1, Collecting) as pool:
        answers = collects(pool, "schedule", lambda: pool.submit(pow, 2, 5))
        far = pool.schedule(HOUR, print)
        assert answers[0].result(PATIENCE) == 32
        pulse = collects(pool, "ask", lambda: pool.schedule_at_fixed_rate(HOUR, 1, print))
        pool.counts()
        assert pulse[-1].remaining() > 3000 and pool.counts().queue == 2
        cancelled = []

        def submit_and_cancel():
            future = pool.schedule(HOUR, print)
            cancelled.append((future, future.cancel()))

        collects(pool, "ask", submit_and_cancel)
        pool.counts()
        assert cancelled[0][1] and cancelled[0][0].cancelled() and pool.counts().queue == 2
        late = collects(pool, "shutdown", lambda: pool.submit(print))
        pool.shutdown(wait=False)
        assert late[-1].cancelled() and late[-1].cancel() and not far.done()
        assert far.cancel()


def ends():
    """A shutdown is done once the call is through, and nobody waits for the end within it."""
    with pool_of(2, Collecting) as pool:
        collects(pool, "schedule", lambda: refuses(RuntimeError, pool.shutdown))
        far = pool.schedule(HOUR, print)
        assert pool.is_shutdown and not far.done()
        refused = pool._workers.timers.answers[0]
        assert str(refused) == "cannot wait for a pool within a call of it", refused
        far.cancel()
    with pool_of(1, Collecting) as pool:
        pool.shutdown(wait=False)
        collects(pool, "state_of", lambda: setattr(pool, "executes_delayed", False))
        assert "shut" in repr(pool) and not pool.executes_delayed


def other_threads():
    """Who has not the lock waits for it, as ever."""
    with pool_of(1) as pool:
        far, lock, got = pool.schedule(HOUR, print), pool._workers.lock, []
        with lock:
            waiter = threading.Thread(target=lambda: got.append(far.cancel()))
            waiter.start()
            waiter.join(0.05)
            assert waiter.is_alive() and not far.cancelled()
        waiter.join(PATIENCE)
        assert got == [True] and far.cancelled()


try_all(cancels_as_tasks_end, asks_as_tasks_end, cancels_at_each_call, cancels_what_begins,
        cancels_what_ends, submits, ends, other_threads)
print("each answer came")
