"""What the wrappers in Python refuse before the library is called, what they free, and that
threads may share a queue."""

import gc
import os
import pickle
import resource
import subprocess
import sys
import threading

from recorded_timers import PYTHON, refuses
from sched_timers import (ClosedError, DelayQueue, Executor, SchedError, delay_queue,
                          executor_errors)
from sched_timers.delay_queue import (EntryExistsError, QueueClosedError, QueueError,
                                      QueueMemoryError, UnknownTaskError)
from sched_timers.executor import (ExecutorClosedError, ExecutorError, Fault, FaultKind,
                                   LimitError, LimitReachedError, Phase, PlanError, Run, TaskState,
                                   UnknownWorkerError, WorkerCountError)

PLAN = b'version = 2\n[[block]]\ncall = [{ op = "rate", name = "a", first = 5, period = 10 }]\n'
NO_NAME = PLAN.replace(b'"a"', b'""')
MOST = (1 << 64) - 1


def queue_numbers():
    """Numbers that do not fit change nothing."""
    queue = DelayQueue(3)
    for count in (-1, 1 << 32):
        refuses(ValueError, DelayQueue, count)
    for entry in [(-1, 0), (1 << 64, 0), (0, -1), (0, 1 << 32), (0,), (0, 0, 0)]:
        assert not isinstance(refuses(ValueError, queue.insert, [(1, 1), entry]), SchedError)
    for now, room in [(-1, 1), (1 << 64, 1), (5, -1)]:
        refuses(ValueError, queue.poll, now, room)
    for call in (queue.remove, queue.due_of):
        refuses(ValueError, call, -1)
        refuses(ValueError, call, 1 << 32)
    assert len(queue) == 0 and queue.peek() is None and queue.touched() == 0


def queue_kinds():
    """What is no number changes nothing; and a bool is none."""
    queue = DelayQueue(3)
    for count in (1.5, "1", None, True):
        refuses(TypeError, DelayQueue, count)
    for entry in [(0.5, 0), (0, "1"), (True, 0), (0, False), (None, 0), 5, "ab"]:
        refuses(TypeError, queue.insert, [(1, 1), entry])
    refuses(TypeError, queue.insert, 5)
    for now, room in [(0.5, 1), (True, 1), ("5", 1), (5, 0.5), (5, 2.0), (5, True), (5, "1")]:
        refuses(TypeError, queue.poll, now, room)
    for call in (queue.remove, queue.due_of):
        for task in (0.0, "0", None, False):
            refuses(TypeError, call, task)
    assert len(queue) == 0 and queue.peek() is None and queue.touched() == 0


def queue_answers():
    """Each answer of a queue."""
    queue = DelayQueue(3)
    queue.insert([])
    refused = refuses(EntryExistsError, queue.insert, [(7, 2), (MOST, 1), (7, 2)])
    assert refused.place == 2 and isinstance(refused, QueueError)
    assert refuses(UnknownTaskError, queue.insert, [(7, 0), (7, 3)]).place == 1
    assert len(queue) == 3 and queue.due_of(1) == MOST and queue.due_of(3) is None
    assert 1 in queue and all(stranger not in queue for stranger in (3, -1, True, 1.0, "1", None))
    assert repr(queue) == "<DelayQueue tasks=3 entries=3>"
    assert queue.peek() == (7, 0) and queue.poll(6) == [] and queue.poll(7, 0) == []
    assert queue.poll(7, 1) == [(7, 0)]
    assert queue.remove(1) and not queue.remove(1) and not queue.remove(3)
    assert queue.poll(MOST, 1 << 80) == [(7, 2)] and queue.touched() > 0
    with queue as same:
        assert same is queue and not queue.closed
    queue.close()
    assert queue.closed and repr(queue) == "<DelayQueue closed>"
    for call in (queue.peek, queue.__len__, queue.touched, queue.__enter__,
                 lambda: queue.insert([]), lambda: queue.poll(1), lambda: queue.remove(0),
                 lambda: 0 in queue, lambda: None in queue):
        assert isinstance(refuses(QueueClosedError, call), ClosedError)


def executor_numbers():
    """Numbers that do not fit, and what is none, change nothing."""
    for workers, limit in [(-1, 1), (1 << 32, 1), (1, -1), (1, 1 << 64)]:
        assert not isinstance(refuses(ValueError, Executor, PLAN, workers, limit), SchedError)
    for plan, workers, limit in [(PLAN, 1.5, 1), (PLAN, 1, True), (PLAN, "1", 1),
                                 (PLAN.decode(), 1, 1), (None, 1, 1), (5, 1, 1)]:
        refuses(TypeError, Executor, plan, workers, limit)
    executor = Executor(PLAN, 1, 2)
    for call, *words in [
        (executor.clock, -1), (executor.clock, 1 << 64), (executor.start, -1),
        (executor.start, 1 << 32), (executor.finish, 0, -1), (executor.finish, 0, 1 << 64),
        (executor.fail, 0, 1 << 32), (executor.cancel, -1), (executor.task, 1 << 32),
    ]:
        refuses(ValueError, call, *words)
    for call, *words in [
        (executor.clock, 0.5), (executor.clock, True), (executor.start, "0"),
        (executor.finish, 0, None), (executor.fail, False, 1), (executor.cancel, 0.0),
        (executor.task, True),
    ]:
        refuses(TypeError, call, *words)
    assert executor.state().taken == 0 and executor.lines() == []


def executor_answers():
    """Each answer of an executor."""
    assert refuses(PlanError, Executor, NO_NAME, 0, 0).fault == Fault(FaultKind.BAD_NAME, 1, 1)
    for workers in (0, 65, 257):
        refuses(WorkerCountError, Executor, PLAN, workers, 0)
    for limit in (0, (1 << 32) + 1):
        refuses(LimitError, Executor, PLAN, 64, limit)
    with Executor(memoryview(PLAN), 1, 2) as executor:
        assert repr(executor) == "<Executor tasks=1 now=0 taken=0>"
    executor = Executor(bytearray(PLAN), 1, 2)
    executor.clock(5)
    assert executor.text() == b"0 submit 0 rate due 5\n5 clock\n" and executor.state().ripe is True
    refuses(executor_errors.UnknownTaskError, executor.task, 1)
    for call, *words in [(executor.start, 256), (executor.finish, 257, 1),
                         (executor.fail, 256, 1)]:
        refuses(UnknownWorkerError, call, *words)
    assert executor.started() is None and executor.start(0) == Run(0, 5, 0, 0)
    assert executor.lines() == ["5 start 0 task 0 run 0 due 5"]
    assert executor.task(0) == TaskState(Phase.RUNNING, 0, False)
    assert isinstance(refuses(LimitReachedError, executor.clock, 6), ExecutorError)
    executor.close()
    executor.close()
    assert executor.closed and repr(executor) == "<Executor closed>"
    for call in (executor.state, executor.lines, lambda: executor.clock(7)):
        assert isinstance(refuses(ExecutorClosedError, call), ClosedError)


def errors():
    """Each status that is a refusal has an error, whose text is that of the status; and an error
    that is sent to another process arrives as it was."""
    for module, others in [(delay_queue, {"DONE", "NO_ENTRY", "HAS_QUEUE"}),
                           (executor_errors, {"DONE", "HAS_EXECUTOR", "NO_PLAN", "NOT_STARTED"})]:
        refusals = {status for status in module.Status if status.name not in others}
        assert set(module.ERRORS) == refusals
        for status, kind in module.ERRORS.items():
            assert str(kind()) == status.text and issubclass(kind, SchedError)
    error = PlanError(Fault(FaultKind.BAD_NAME, 2, 3))
    assert str(error) == "the text is no plan: BAD_NAME block 2 call 3"
    assert repr(error) == f"PlanError('{error}')"
    for error in [EntryExistsError(7), QueueMemoryError(), PlanError(Fault(FaultKind.TOML, 0, 0))]:
        copied = pickle.loads(pickle.dumps(error))
        assert type(copied) is type(error) and vars(copied) == vars(error)
        assert str(copied) == str(error)


def no_library():
    """Where the shared library is not there, the error names it, and what names another one."""
    program = "from sched_timers import DelayQueue; DelayQueue(1)"
    environment = os.environ | {"PYTHONPATH": str(PYTHON), "LIBDELAY_QUEUE": "/nowhere/at_all.so"}
    ended = subprocess.run([sys.executable, "-c", program], env=environment, text=True,
                           capture_output=True)
    last = ended.stderr.splitlines()[-1]
    assert ended.returncode == 1 and last.startswith("OSError: /nowhere/at_all.so: "), ended.stderr
    assert "docs/EMBEDDING.md" in last and "LIBDELAY_QUEUE" in last, last


def frees():
    """Queues and executors that nobody closes are freed: kept, they would take gigabytes."""
    for _ in range(400):
        DelayQueue(1_000_000).insert([(1, 999_999)])
    long_plan = PLAN.replace(b"[[block]]\n", b"[[block]]\ntimes = 65536\nevery = 10\n")
    for _ in range(100):
        Executor(long_plan, 1, 1).clock(5)
    gc.collect()
    assert resource.getrusage(resource.RUSAGE_SELF).ru_maxrss < 400_000


def shares():
    """Threads that use one queue at a time each find their own tasks, and none of another's."""
    tasks, threads, faults = 50, 8, []
    queue = DelayQueue(tasks * threads)
    sys.setswitchinterval(1e-6)

    def use(first):
        for turn in range(100):
            mine = range(first, first + tasks)
            queue.insert([(1 << 63, task) for task in mine])
            if queue.poll(turn) or not all(queue.remove(task) for task in mine):
                faults.append(first)

    users = [threading.Thread(target=use, args=(number * tasks,)) for number in range(threads)]
    for user in users:
        user.start()
    for user in users:
        user.join()
    assert not faults and len(queue) == 0


for test in (queue_numbers, queue_kinds, queue_answers, executor_numbers, executor_answers, errors,
             no_library, frees, shares):
    test()
print("each answer came")
