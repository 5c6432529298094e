"""What timers in Python answer, and what their wrapper refuses.

Where SCHED names the program `sched`, the traces of these tests are checked with it; else that is
left out, which is told.
"""

import gc
import pickle
import resource
from unittest import mock

from recorded_timers import Recorded, end_with_traces, found, refuses
from sched_timers import ClosedError, SchedError
from sched_timers.timers import (
    CodeTooLargeError, Effect, End, Ending, Gone, IllegalArgumentError, MomentTooFarError,
    NotASpanError, NotRunningError, Outcome, Phase, Policy, RejectedError, Run, SpanError,
    SpanTooLongError, Status, TaskRef, TaskState, Timers, TimersClosedError, TimersError,
    TimersMemoryError, UnknownPolicyError, UnknownTaskError, UnknownWorkerError, WorkerBusyError,
    WorkerCountError, ZeroPeriodError)
from sched_timers.timers_errors import ERRORS

LONGEST = 1 << 62
# What is none of ERRORS, or never comes.
NO_ERRORS = {Status.DONE, Status.SHUT, Status.IDLE, Status.HAS_TIMERS}


def numbers():
    """Numbers that do not fit change nothing."""
    for workers in (-1, 1 << 32):
        refuses(ValueError, Timers, workers)
    timers = Timers(2)
    timers.execute(5)
    before = timers.state(), timers.text()
    for call, *words in [
        (timers.reserve, -1), (timers.reserve, 1 << 32), (timers.schedule, -1, 0),
        (timers.schedule, 0, -1), (timers.schedule, 1 << 64, 0), (timers.schedule, 0, 0, 1 << 64),
        (timers.execute, 0, -1), (timers.execute, 0, 1 << 64), (timers.at_rate, 0, 0, -1),
        (timers.at_rate, 0, -1, 1), (timers.with_delay, 0, 0, -1), (timers.poll, -1),
        (timers.poll, 0, -1), (timers.poll, 0, 1 << 32), (timers.finish, 0, 0, -1),
        (timers.finish, 0, 0, 1 << 64), (timers.fail, 0, 0, 1 << 32), (timers.ask, -1),
        (timers.set_policy, 0, -1, True), (timers.shutdown, 1 << 64), (timers.shutdown_now, -1),
        (timers.poll_many, 5, [0, -1]), (timers.poll_many, 5, [0, 1 << 32]),
        (timers.poll_many, -1, [0]), (timers.finish_many, 5, [Ending(0), Ending(0, 1 << 64)]),
        (timers.finish_many, 5, [Ending(0), Ending(-1)]), (timers.finish_many, 5, [(0, 0)]),
    ]:
        assert not isinstance(refuses(ValueError, call, *words), SchedError)
    for task in [(-1, 0), (1 << 64, 0), (0, -1), (0, 1 << 32), (0,), (0, 0, 0)]:
        refuses(ValueError, timers.cancel, task)
        refuses(ValueError, timers.task, task)
    assert (timers.state(), timers.text()) == before


def kinds():
    """Arguments that are no numbers, or no flags, change nothing. A bool is no number."""
    for workers in (1.5, "1", None, True):
        refuses(TypeError, Timers, workers)
    timers = Timers(2)
    timers.execute(5)
    before = timers.state(), timers.text()
    for call, *words in [
        (timers.reserve, 1.0), (timers.reserve, False), (timers.schedule, 0, 0.5),
        (timers.schedule, True, 5), (timers.schedule, 0, None), (timers.schedule, 0, 0, "data"),
        (timers.execute, b"0"), (timers.at_rate, 0, 0, 0.1), (timers.with_delay, 0, 0, True),
        (timers.poll, 0.0), (timers.poll, 5, False), (timers.poll, 5, [0]),
        (timers.finish, 0, 0, 1.5), (timers.fail, 0, 0, True), (timers.ask, None),
        (timers.set_policy, 0, "remove", True), (timers.set_policy, 0, True, Policy.REMOVE),
        (timers.set_policy, 0, Policy.REMOVE, 1), (timers.set_policy, 0, Policy.REMOVE, None),
        (timers.shutdown, 0.5), (timers.shutdown_now, "0"), (timers.poll_many, 5, [0, 0.5]),
        (timers.poll_many, 5, [True]), (timers.poll_many, 5, 0), (timers.poll_many, "5", [0]),
        (timers.finish_many, 5, [Ending(0), Ending(0, 0.5)]), (timers.finish_many, 5, [0]),
        (timers.finish_many, 5, [Ending(False)]), (timers.finish_many, 5, [Ending(0, 0, 1)]),
    ]:
        refuses(TypeError, call, *words)
    for task in [0, None, (0.5, 0), (0, True), "ab"]:
        refuses(TypeError, timers.cancel, task)
        refuses(TypeError, timers.task, task)
    assert (timers.state(), timers.text()) == before


def members():
    """Which tasks are in the timers, how many, and how timers are shown."""
    timers = Timers(2)
    assert len(timers) == 0 and not timers and repr(timers) == "<Timers workers=2 alive=0 now=0>"
    task, other = timers.execute(7), timers.schedule(7, 10)
    assert task in timers and other in timers and len(timers) == 2
    for stranger in (TaskRef(2, 0), TaskRef(-1, 0), TaskRef(0, 0.5), 0, (0, 0), "task", None):
        assert stranger not in timers
    assert timers.cancel(other) and other in timers and len(timers) == 2
    assert timers.poll(7).task == task and task in timers and timers.finish(7)
    assert task not in timers and len(timers) == 1
    assert repr(timers) == "<Timers workers=2 alive=1 now=7>"
    with timers as same:
        assert same is timers and not timers.closed
    assert timers.closed and repr(timers) == "<Timers closed>"
    for call in (timers.__len__, timers.__enter__, lambda: task in timers, lambda: None in timers):
        assert isinstance(refuses(TimersClosedError, call), ClosedError)


def errors():
    """Each error of a call, after which the timers are as they were."""
    assert set(ERRORS) | NO_ERRORS == set(Status) and not set(ERRORS) & NO_ERRORS
    for workers in (0, 65, 257):
        refuses(WorkerCountError, Timers, workers)
    timers = Timers(2)
    timers.execute(0)
    timers.poll(5, 1)
    before = timers.state(), timers.text()
    for kind, call, *words in [
        (ZeroPeriodError, timers.at_rate, 0, 0, 0),
        (ZeroPeriodError, timers.with_delay, 0, 0, 0),
        (ZeroPeriodError, timers.at_rate, LONGEST + 1, LONGEST + 1, 0),
        (UnknownPolicyError, timers.set_policy, 0, 3, True),
        (SpanTooLongError, timers.schedule, LONGEST + 1, LONGEST + 1),
        (SpanTooLongError, timers.at_rate, 0, LONGEST + 1, 1),
        (SpanTooLongError, timers.with_delay, 0, 0, LONGEST + 1),
        (MomentTooFarError, timers.schedule, LONGEST + 1, LONGEST),
        (MomentTooFarError, timers.execute, LONGEST + 1),
        (MomentTooFarError, timers.poll, LONGEST + 1),
        (MomentTooFarError, timers.finish, LONGEST + 1, 1),
        (MomentTooFarError, timers.ask, LONGEST + 1),
        (MomentTooFarError, timers.shutdown, LONGEST + 1),
        (MomentTooFarError, timers.shutdown_now, LONGEST + 1),
        (MomentTooFarError, timers.set_policy, LONGEST + 1, Policy.REMOVE, True),
        (UnknownWorkerError, timers.poll, LONGEST + 1, 2),
        (UnknownWorkerError, timers.finish, 5, 2), (UnknownWorkerError, timers.fail, 5, 2),
        (WorkerBusyError, timers.poll, 5, 1), (NotRunningError, timers.finish, 5),
        (NotRunningError, timers.fail, 5), (UnknownTaskError, timers.cancel, TaskRef(1, 0)),
        (UnknownTaskError, timers.task, TaskRef(1, 0)),
        (TimersMemoryError, timers.reserve, (1 << 32) - 1),
    ]:
        refused = refuses(kind, call, *words)
        assert type(refused) is kind and isinstance(refused, TimersError)
        assert isinstance(refused, SchedError)
        assert isinstance(refused, IllegalArgumentError | SpanError) or (
            str(refused) == refused.status.text)
        assert (timers.state(), timers.text()) == before, (call, words)


def reasons():
    """Of one status that has more causes each has an error of its own, in words. One of a span
    tells it, however long it is."""
    timers = Timers(1)
    longest = "4611686018.427387904 seconds, which are 2^62 nanoseconds"
    for span, shown in [(LONGEST + 1, str(LONGEST + 1)), (1 << 64, str(1 << 64)),
                        (1 << 300, "2**300 or more"), (10**5000, "2**16609 or more")]:
        for call, *words in [(timers.schedule, span), (timers.at_rate, span, 1),
                             (timers.at_rate, 1, span), (timers.with_delay, 1, span)]:
            refused = refuses(SpanTooLongError, call, 0, *words)
            assert str(refused) == (
                f"a span of {shown} nanoseconds is above the longest, {longest}")
            assert refused.span == span and refused.unit == "nanoseconds"
    assert timers.cancel(timers.schedule(0, LONGEST))
    zero = refuses(ZeroPeriodError, timers.with_delay, 0, 5, 0)
    assert str(zero) == ("a period, or a delay between runs, of 0 nanoseconds is less than "
                         "1 nanosecond")
    assert isinstance(zero, SpanError) and isinstance(zero, ValueError)
    policy = refuses(UnknownPolicyError, timers.set_policy, 0, 3, True)
    assert str(policy) == "there is no such policy"
    code = refuses(CodeTooLargeError, timers.finish_many, 0, [Ending(0, 1 << 32, True)])
    assert str(code) == "the code of a failure is above 4294967295" and code.before == []
    for error in (zero, policy, code, NotASpanError(float("inf"), "seconds")):
        assert isinstance(error, IllegalArgumentError) and error.status is Status.ILLEGAL
    unknown = refuses(RuntimeError, timers._done, 99)
    assert str(unknown) == "the library answers 99, for which there is no word here"
    timers.close()
    refuses(TimersClosedError, timers.schedule, 0, LONGEST + 1)


def closed():
    """What is closed refuses each call, and may be closed again."""
    timers = Timers(2)
    timers.close()
    timers.close()
    for call, *words in [
        (timers.state,), (timers.lines,), (timers.next_due,), (timers.ended,),
        (timers.execute, 0), (timers.poll, 0), (timers.poll_many, 0, [0]),
        (timers.finish_many, 0, [Ending(0)]), (timers.shutdown, 0), (timers.reserve, 1),
    ]:
        refuses(TimersClosedError, call, *words)


def copies():
    """An error that is sent to another process arrives as it was."""
    for error in [NotRunningError([Ending(0)]), RejectedError(TaskRef(3, 4)), WorkerCountError(),
                  SpanTooLongError(1e300, "seconds"), SpanTooLongError(), ZeroPeriodError(0),
                  CodeTooLargeError([Ending(0)])]:
        copied = pickle.loads(pickle.dumps(error))
        assert type(copied) is type(error) and vars(copied) == vars(error)
        assert copied.args == error.args and str(copied) == str(error)
    assert str(SpanTooLongError()) == Status.TOO_LONG.text
    assert RejectedError(TaskRef(3, 4)).args == (TaskRef(3, 4),)
    assert repr(NotRunningError()) == "NotRunningError('the worker has no run under way')"


def runs():
    """Ties go by submission, rates make up for late runs, and a fixed delay counts from the end of
    a run."""
    with Timers(1) as timers:
        late = timers.schedule(0, 30, 3)
        first, second = timers.schedule(0, 20, 1), timers.schedule(0, 20, 2)
        assert timers.next_due() == 20 and timers.poll(19) is None
        assert timers.lines() == ["19 clock", "19 start 0 idle"]
        assert timers.poll(31) == Run(first, 0, 20, 1, 0)
        assert timers.lines() == ["31 clock", "31 start 0 task 1 run 0 due 20"]
        assert timers.task(first) == TaskState(0, 20, Phase.RUNNING, False)
        assert timers.finish(31, value=9) == End(first, 0, 1, 9, Outcome.DONE)
        assert timers.task(first).phase is Phase.GONE
        assert timers.poll(31) == Run(second, 0, 20, 2, 0)
        assert timers.fail(31, code=4) == End(second, 0, 2, 4, Outcome.FAILED)
        assert timers.poll(31) == Run(late, 0, 30, 3, 0)
        assert timers.finish(31).outcome is Outcome.DONE
        assert timers.next_due() is None and timers.state().alive == 0
        rate = timers.at_rate(100, 10, 10, 7)
        for number in range(3):
            assert timers.poll(135) == Run(rate, number, 110 + 10 * number, 7, 0)
            assert timers.finish(135) == End(rate, number, 7, 120 + 10 * number, Outcome.AGAIN)
        assert timers.poll(135) is None and timers.cancel(rate)
        fixed = timers.with_delay(200, 10, 10)
        assert timers.poll(215) == Run(fixed, 0, 210, 0, 0) and timers.finish(220).value == 230
        assert timers.poll(229) is None
        assert timers.poll(230).run == 1 and timers.fail(231).outcome is Outcome.FAILED
        assert timers.next_due() is None
        never = timers.schedule(LONGEST, LONGEST)
        assert timers.next_due() == 2 * LONGEST and timers.poll(LONGEST) is None
        assert timers.cancel(never)


def cancels():
    """A cancel in each state of a task; and one of a task that is over, whose slot another has."""
    timers = Timers(1)
    once = timers.schedule(0, 10)
    assert timers.cancel(once) is Effect.YES and timers.cancel(once) is Effect.NO
    assert not timers.cancel(once)
    assert timers.task(once) == TaskState(0, 10, Phase.KEPT, True) and timers.ask(1).queue == 1
    assert timers.poll(10) is None and timers.task(once) == TaskState(0, 0, Phase.GONE, False)
    assert timers.ask(11).queue == 0
    timers.set_policy(11, Policy.REMOVE, True)
    removed = timers.schedule(11, 10)
    assert timers.cancel(removed) and timers.task(removed).phase is Phase.GONE
    assert timers.state().alive == 0
    rate = timers.at_rate(12, 0, 5)
    assert timers.poll(12) and timers.cancel(rate)
    assert timers.task(rate) == TaskState(0, 12, Phase.RUNNING, True)
    assert timers.cancel(rate) is Effect.NO and timers.finish(13).outcome is Outcome.DROPPED
    assert timers.next_due() is None
    failing = timers.at_rate(13, 0, 5)
    assert timers.poll(14).task == failing and timers.cancel(failing)
    assert timers.fail(14).outcome is Outcome.DROPPED
    while (other := timers.execute(14)).slot != rate.slot:
        pass
    assert timers.cancel(rate) is Effect.NO and timers.task(other).phase is Phase.WAITING
    over = timers.poll(15).task
    assert timers.finish(15).task == over and timers.cancel(over) is Effect.NO
    timers.shutdown(15)
    number = timers.state().numbers
    rejected = refuses(RejectedError, timers.execute, 15).task
    assert rejected == TaskRef(number, (1 << 32) - 1)
    assert timers.lines() == [f"16 refuse {number} rejected"]
    assert timers.cancel(rejected) is Effect.NONE and not timers.cancel(rejected)
    assert timers.task(rejected).phase is Phase.GONE


def purges():
    """A purge takes what is kept, and nothing that waits."""
    timers = Timers(1)
    task, other = timers.schedule(0, 5, 70), timers.schedule(0, 9, 71)
    assert timers.cancel(task) and len(timers) == 2
    assert (timers.next_due(), timers.head_due()) == (9, 5)
    assert timers.purge() is None and len(timers) == 1
    assert (timers.next_due(), timers.head_due()) == (9, 9)
    assert task not in timers and other in timers
    timers.shutdown_now(0)
    timers.purge()
    assert timers.head_due() is None


def policies():
    """What each policy ends at a shutdown, and after it."""
    timers = Timers(1)
    assert timers.state().policies == {Policy.EXECUTE}
    kept, once = timers.schedule(0, 9), timers.schedule(0, 10, 1)
    rate = timers.at_rate(0, 10, 10, 2)
    timers.cancel(kept)
    timers.set_policy(0, Policy.CONTINUE, True)
    assert timers.state().policies == {Policy.EXECUTE, Policy.CONTINUE} and timers.ended() == []
    assert timers.shutdown(1) and timers.ended() == [] and not timers.shutdown(1)
    assert timers.lines() == ["1 shutdown again"]
    timers.set_policy(2, Policy.EXECUTE, False)
    assert timers.ended() == [Gone(once, 1)]
    assert timers.lines() == ["2 policy execute false", "2 end 1"]
    assert timers.state().ended == 1 and timers.state().shut and not timers.state().terminated
    assert timers.poll(10).task == rate and timers.finish(11).outcome is Outcome.AGAIN
    assert timers.poll(20).run == 1
    timers.set_policy(21, Policy.CONTINUE, False)
    assert timers.ended() == [] and timers.finish(22).outcome is Outcome.ENDED
    assert timers.state().terminated


def stops():
    """A shutdown at once ends all that waits, in more lines than are copied at a time, and what
    runs ends with its run."""
    late = LONGEST - 2
    with Timers(2) as timers:
        tasks = [timers.schedule(0, LONGEST, number) for number in range(4000)]
        assert timers.at_rate(0, 0, 1) == timers.poll(0).task
        timers.shutdown_now(late)
        assert timers.ended() == [Gone(task, number) for number, task in enumerate(tasks)]
        ends = [f"{late} end {number}" for number in range(4000)]
        assert timers.lines() == [f"{late} shutdown now", *ends]
        assert timers.state().lines == 4001 and timers.ask(late) == (0, 1, True, False)
        assert timers.finish(LONGEST - 1).outcome is Outcome.ENDED
        assert timers.ask(LONGEST) == (0, 0, True, True)


def many():
    """Calls for many workers, each up to the first that gets nothing or is refused."""
    timers = Timers(3)
    tasks = [timers.schedule(0, 1, data) for data in range(2)]
    assert timers.poll_many(0, []) == [] and timers.poll_many(0, [2, 0, 1]) == []
    assert timers.finish_many(0, []) == []
    begun = timers.poll_many(1, [2, 0, 1])
    assert begun == [Run(tasks[0], 0, 1, 0, 2), Run(tasks[1], 0, 1, 1, 0)]
    assert timers.lines() == ["1 clock", "1 start 1 idle"]
    refused = refuses(NotRunningError, timers.finish_many, 2, [Ending(2, 7), Ending(1), Ending(0)])
    assert refused.before == [End(tasks[0], 0, 0, 7, Outcome.DONE)]
    assert timers.task(tasks[1]).phase is Phase.RUNNING
    other = timers.execute(3)
    refused = refuses(WorkerBusyError, timers.poll_many, 3, [1, 0, 2])
    assert refused.before == [Run(other, 0, 3, 0, 1)]
    endings = iter([Ending(1), Ending(0, 1 << 32, True)])
    refused = refuses(CodeTooLargeError, timers.finish_many, 4, endings)
    assert [end.outcome for end in refused.before] == [Outcome.DONE]
    refused = refuses(CodeTooLargeError, timers.finish_many, 4, [Ending(9, 1 << 32, True)])
    assert refused.before == []
    most = (1 << 32) - 1
    ended = timers.finish_many(4, [Ending(0, most, True)])
    assert ended == [End(tasks[1], 0, 1, most, Outcome.FAILED)]


def frees():
    """Timers that nobody closes are freed: kept, they would take gigabytes."""
    for _ in range(100):
        Timers(1).reserve(100_000)
    gc.collect()
    assert resource.getrusage(resource.RUSAGE_SELF).ru_maxrss < 400_000


def traces(program):
    """The traces of the tests above are those of the one history that their calls allow. Calls
    that are refused leave none."""
    made = []

    class Noted(Recorded):
        """Timers that are found again."""

        def __init__(self, workers):
            super().__init__(workers)
            made.append(self)

    with mock.patch.dict(globals(), Timers=Noted):
        for test in (numbers, kinds, errors, reasons, runs, cancels, purges, policies, stops):
            test()
    for timers in made:
        answer = found(program, timers, "".join(timers.trace))
        assert answer == "conforms\n", (answer, timers.trace)
        if len(timers.trace) > 1:
            assert found(program, timers, "".join(timers.trace[1:])).startswith("breaks ")


for test in (numbers, kinds, members, errors, reasons, closed, copies, runs, cancels, policies,
             stops, many, frees):
    test()
end_with_traces(traces)
