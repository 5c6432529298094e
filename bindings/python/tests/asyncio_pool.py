"""What `asyncio` makes of a pool of threads: the calls that its documents name, `wrap_future` and
`run_in_executor`."""

import asyncio
import functools
import threading
import time

from tried_pools import PATIENCE, held, pool_of, refuses, try_all, wait_until
from sched_timers.timers import RejectedError

HOUR = 3600


def in_loop(test):
    """A test that runs in a loop of its own, which has to end."""
    @functools.wraps(test)
    def run():
        asyncio.run(asyncio.wait_for(test(), PATIENCE))
    return run


async def error_of(awaitable):
    """The exception that an awaitable raises."""
    try:
        await awaitable
    except BaseException as error:
        return error
    raise AssertionError("nothing is raised")


@in_loop
async def values():
    """A value comes no sooner than it is due, and an exception is that of the call."""
    with pool_of(2) as pool:
        begun = time.monotonic()
        assert await asyncio.wrap_future(pool.schedule(0.03, pow, 2, 10)) == 1024
        assert time.monotonic() >= begun + 0.03
        failure = await error_of(asyncio.wrap_future(pool.submit(divmod, 1, 0)))
        assert isinstance(failure, ZeroDivisionError)
        beat = pool.schedule_at_fixed_rate(0, HOUR, divmod, 1, 0)
        assert isinstance(await error_of(asyncio.wrap_future(beat)), ZeroDivisionError)


@in_loop
async def executor():
    """A pool is an executor to a loop, also where it is shut down."""
    loop = asyncio.get_running_loop()
    with pool_of(2) as pool:
        assert await loop.run_in_executor(pool, pow, 3, 3) == 27
        name = await loop.run_in_executor(pool, lambda: threading.current_thread().name)
        assert name != threading.current_thread().name
        failure = await error_of(loop.run_in_executor(pool, divmod, 1, 0))
        assert isinstance(failure, ZeroDivisionError)
        pool.shutdown()
        assert refuses(RejectedError, loop.run_in_executor, pool, print)


@in_loop
async def many():
    """Many are awaited at once, and come in the order of what they are asked, whatever is due
    first."""
    with pool_of(3) as pool:
        futures = [pool.schedule(place % 7 / 1000, pow, place, 2) for place in range(1000)]
        squares = await asyncio.gather(*map(asyncio.wrap_future, futures))
        assert squares == [place * place for place in range(1000)]


@in_loop
async def cancels():
    """A cancel on either side is one on the other, at the loop's next turn: the call is taken out
    of the pool."""
    with pool_of(1) as pool:
        far = pool.schedule(HOUR, print)
        wrapped = asyncio.wrap_future(far)
        wrapped.cancel()
        await asyncio.sleep(0)
        assert isinstance(await error_of(wrapped), asyncio.CancelledError)
        assert far.cancelled() and pool.counts().queue == 0

        far = pool.schedule(HOUR, print)
        wrapped = asyncio.wrap_future(far)
        assert far.cancel()
        assert isinstance(await error_of(wrapped), asyncio.CancelledError)

        far = pool.schedule(HOUR, print)
        late = asyncio.wait_for(asyncio.wrap_future(far), 0.01)
        assert isinstance(await error_of(late), asyncio.TimeoutError)
        assert far.cancelled() and pool.counts().queue == 0

        pulse = pool.schedule_with_fixed_delay(0, 0.001, lambda: None)
        wrapped = asyncio.wrap_future(pulse)
        await asyncio.sleep(0.01)
        wrapped.cancel()
        await asyncio.sleep(0)
        assert isinstance(await error_of(wrapped), asyncio.CancelledError)
        assert pulse.cancelled()


@in_loop
async def runs():
    """A run that is under way goes on where its future is cancelled: nobody waits for it."""
    with pool_of(1) as pool:
        begun, going = threading.Event(), threading.Event()
        wrapped = asyncio.wrap_future(pool.submit(lambda: (begun.set(), going.wait(PATIENCE))))
        wait_until(begun.is_set)
        wrapped.cancel()
        assert isinstance(await error_of(wrapped), asyncio.CancelledError)
        assert pool.counts().running == 1
        going.set()
        assert await asyncio.wrap_future(pool.submit(int)) == 0


@in_loop
async def ends():
    """The end of a pool cancels who awaits what does not come."""
    with pool_of(1) as pool:
        going = held(pool)
        waits = [asyncio.wrap_future(pool.schedule(delay, print)) for delay in (0, HOUR)]
        pool.shutdown(wait=False, cancel_futures=True)
        for wrapped in waits:
            assert isinstance(await error_of(wrapped), asyncio.CancelledError)
        going.set()


@in_loop
async def loop_goes_on():
    """The loop does other things while calls wait and run, and jobs call back into it."""
    loop, beats, going = asyncio.get_running_loop(), asyncio.Queue(), threading.Event()
    with pool_of(2) as pool:
        call_back = functools.partial(loop.call_soon_threadsafe, beats.put_nowait, "beat")
        pulse = pool.schedule_at_fixed_rate(0, 0.002, call_back)
        slow = asyncio.wrap_future(pool.submit(going.wait, PATIENCE))
        assert [await beats.get() for _ in range(3)] == ["beat"] * 3
        assert not slow.done()
        going.set()
        assert await slow and pulse.cancel()


def ended_loop():
    """What comes of a call whose loop has ended is dropped, and the pool goes on."""
    with pool_of(1) as pool:
        going = held(pool)

        async def leave():
            asyncio.wrap_future(pool.submit(int))

        asyncio.run(leave())
        going.set()
        assert pool.submit(pow, 2, 3).result(PATIENCE) == 8


try_all(values, executor, many, cancels, runs, ends, loop_goes_on, ended_loop)
print("each answer came")
