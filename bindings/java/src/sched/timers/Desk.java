package sched.timers;

import java.util.ArrayList;
import java.util.Arrays;
import java.util.Comparator;
import java.util.List;
import java.util.Objects;
import java.util.concurrent.TimeUnit;
import java.util.concurrent.locks.Condition;
import java.util.concurrent.locks.ReentrantLock;

/**
 * All that a pool's lock guards: the timers, the tasks, and the workers. No hook, job, thread factory or handler is called while the lock
 * is held, nor what decorateTask made. What is called, and is not of this package: the consumers of a recording, and of a thread that a
 * factory made getState, isInterrupted and interrupt.
 *
 * <p><b>Who waits, who wakes, and why no wake-up is lost.</b> A worker with nothing to do waits on {@link #available}. At most one of them,
 * the {@link #leader}, waits with the limit of the first due moment; the others wait until they are called, or until their time to keep
 * alive is over. It is as in Java's DelayQueue, and this holds whenever the lock is free:
 *
 * <p><i>Where a task stands in the queue and a worker waits, there is a leader that waits no longer than until the first due moment, or a
 * worker that was called, or is awake, and takes the lock before it waits.</i>
 *
 * <p>What could break it, and what mends it in the same hold of the lock:
 * <ul>
 * <li>a task comes before all others ({@link #queued}): the leader waits too long, so there is none from then on, and a worker is called;
 * <li>the leader, or a worker that was called, goes, to run a task or for good ({@link #passOn}): where there is no leader and a task is
 *     left, a worker is called;
 * <li>the pool is shut, a policy is set, sizes change, or the queue becomes empty while that lets workers go ({@link #emptied}): all are
 *     called;
 * <li>a task that is cancelled, removed or swept makes the first due moment later: the leader wakes too early, and looks again.
 * </ul>
 * A worker that is called and interrupted at once looks again as well.
 */
final class Desk {
    private final TimersThreadPoolExecutor pool;
    private final ReentrantLock lock = new ReentrantLock();
    /** Workers wait here for a task, or to be told to go. */
    private final Condition available = lock.newCondition();
    /** Whoever waits for the end of the pool waits here, and is called once terminated() has returned. */
    private final Condition ends = lock.newCondition();
    private final long base = System.nanoTime();

    private Timers timers;
    private boolean recorded;
    private final TaskTable table = new TaskTable();
    private final KeptTasks kept = new KeptTasks();
    /** How many tasks wait; those of the table that do not are run. */
    private int waiting;

    /** The workers by their numbers. One that is to go has none any more. */
    private final Worker[] workers = new Worker[Timers.MOST_WORKERS];
    /** How many workers have a number, also without a thread yet; how many threads there are, also of workers that go; the most there were. */
    private int taken, threads, largest;
    private int active;
    private long completed;
    private Thread leader;
    /** Grows where the time to keep alive may have changed, so that who waits counts it anew. */
    private int limits;

    // Written under the lock, and read without it where a task asks whether it may run.
    private volatile boolean continues;
    private volatile boolean executes = true;
    private volatile boolean removes;
    private volatile boolean shut;
    private volatile boolean stopped;
    /** All is over, but terminated() perhaps; and that too. */
    private volatile boolean over, terminated;

    Desk(TimersThreadPoolExecutor pool) {
        this.pool = pool;
        timers = new Timers(Timers.MOST_WORKERS);
        timers.rule(0, Timers.REMOVE, true);
    }

    private long clock() {
        return System.nanoTime() - base;
    }

    private void lock() {
        lock.lock();
        if (recorded && lock.getHoldCount() > 1) {
            lock.unlock();
            throw new IllegalStateException("a recorder called its pool");
        }
    }

    // ---- submissions

    /** Whether a task may still run, as the pool is shut and the policies are: what is asked just before it runs. */
    boolean mayRun(ScheduledTask<?> task) {
        if (!shut) return true;
        if (stopped || over) return false;
        return task.isPeriodic() ? continues : executes || task.getDelay(TimeUnit.NANOSECONDS) <= 0;
    }

    /**
     * Submits a task, and starts a thread for it where there are too few. The answer is false where the pool is shut.
     *
     * @param asked  when the task was asked for, by {@link System#nanoTime}
     * @param delay  nanoseconds, 0 to {@link Timers#LONGEST}
     * @throws OutOfMemoryError where there is no memory for it: nothing has changed then
     */
    boolean submit(ScheduledTask<?> task, long asked, long delay) {
        Worker added = null;
        lock();
        try {
            if (shut) {
                if (!over) timers.rejected(task.kind(), timers.callAt(asked - base), delay, task.span());
                return false;
            }
            table.reserve(timers);
            kept.reserve(table.size() + kept.size() + 1L);
            added = missingWorker(); // it may find no memory: so it comes before the task
            long moment = timers.callAt(asked - base), before = firstDue();
            task.place = table.add(task);
            task.waits();
            task.dueAt(base + moment + delay);
            waiting++;
            task.number = timers.submit(task.kind(), task.place, moment, delay, task.span());
            queued(moment + delay, before);
            if (task.isCancelled()) withdraw(task, true); // as decorateTask left it; Java's class keeps it, whatever the policy
        } finally {
            lock.unlock();
        }
        start(added);
        return true;
    }

    /** The first moment at which a task leaves the queue, perhaps too early; {@link Timers#NEVER} where it has none. */
    private long firstDue() {
        ScheduledTask<?> first = kept.first();
        return first == null ? timers.first() : Math.min(timers.first(), first.time() - base);
    }

    /**
     * A task came into the queue that was first due at another moment before. Where nobody waits for that moment, as where who took a kept
     * task is still at it, somebody is to look.
     */
    private void queued(long due, long before) {
        if (due < before) leader = null;
        if (leader == null) available.signal();
    }

    private boolean isQueueEmpty() {
        return waiting == 0 && kept.size() == 0;
    }

    // ---- cancels and removals

    /** A task's future was cancelled: the timers are told. */
    void cancelled(ScheduledTask<?> task) {
        boolean last = false;
        lock();
        try {
            if (task.isWaiting()) {
                withdraw(task, !removes);
                last = ends();
            } else if (task.isRunning()) {
                tell(task);
            }
        } finally {
            lock.unlock();
        }
        if (last) tidy();
    }

    /** The timers are told once that a task which runs is cancelled. */
    private void tell(ScheduledTask<?> task) {
        if (task.isTold()) return;
        task.isToldNow();
        timers.cancel(task.place, task.number);
    }

    /** Takes a task that waits out of the timers, and of the queue unless it is to be kept there. */
    private void withdraw(ScheduledTask<?> task, boolean keeps) {
        timers.cancel(task.place, task.number);
        table.take(task.place);
        waiting--;
        if (keeps) kept.add(task);
        else task.goes();
        emptied();
    }

    /** Where the queue has become empty, workers that are to go then are called. */
    private void emptied() {
        if (isQueueEmpty() && taken != 0 && (shut || pool.mayTimeOut(taken))) available.signalAll();
    }

    /** Takes a task out of the queue, whatever became of its future. The answer is false where it does not stand there. */
    boolean remove(ScheduledTask<?> task) {
        boolean removed = true, last;
        lock();
        try {
            if (task.isWaiting()) withdraw(task, false);
            else if (task.isKept()) kept.remove(task);
            else removed = false;
            emptied();
            last = ends();
        } finally {
            lock.unlock();
        }
        if (last) tidy();
        return removed;
    }

    /** Takes out all that are kept. */
    void dropKept() {
        boolean last;
        lock();
        try {
            kept.clear();
            emptied();
            last = ends();
        } finally {
            lock.unlock();
        }
        if (last) tidy();
    }

    /** What stands in the queue, in no order. */
    List<ScheduledTask<?>> queue() {
        lock();
        try {
            return contents();
        } finally {
            lock.unlock();
        }
    }

    private List<ScheduledTask<?>> contents() {
        List<ScheduledTask<?>> tasks = new ArrayList<>(waiting + kept.size());
        table.forEach(task -> {
            if (task.isWaiting()) tasks.add(task);
        });
        kept.forEach(tasks::add);
        return tasks;
    }

    /** What is first in the queue, or null; taken out where it is due and that is wanted, and else null where it is wanted. */
    ScheduledTask<?> head(boolean isTaken) {
        ScheduledTask<?> head;
        lock();
        try {
            ScheduledTask<?>[] least = {kept.first()};
            table.forEach(task -> {
                if (task.isWaiting() && (least[0] == null || task.compareTo(least[0]) < 0)) least[0] = task;
            });
            head = least[0];
        } finally {
            lock.unlock();
        }
        if (!isTaken || head == null) return head;
        return head.getDelay(TimeUnit.NANOSECONDS) <= 0 && remove(head) ? head : null;
    }

    /** What stands in the queue and is due, the first one first. */
    List<ScheduledTask<?>> dueTasks() {
        lock();
        try {
            List<ScheduledTask<?>> tasks = contents();
            tasks.removeIf(task -> task.getDelay(TimeUnit.NANOSECONDS) > 0);
            tasks.sort(null);
            return tasks;
        } finally {
            lock.unlock();
        }
    }

    boolean isQueued(ScheduledTask<?> task) {
        lock();
        try {
            return task.isWaiting() || task.isKept();
        } finally {
            lock.unlock();
        }
    }

    int queueSize() {
        lock();
        try {
            return waiting + kept.size();
        } finally {
            lock.unlock();
        }
    }

    // ---- the rounds of a worker

    /** A worker is done with its task, and gets the next one, for which it waits. The answer is false where it is to go. */
    boolean take(Worker worker) {
        lock();
        try {
            int ending = leaveTask(worker), seen = limits;
            long deadline = Timers.NEVER;
            boolean timedOut = false;
            for (;;) {
                if (mustGo(timedOut)) {
                    if (ending != Timers.NONE) timers.cycle(clock(), worker.id, ending, false);
                    giveUp(worker);
                    return false;
                }
                if (begin(worker, ending)) return true;
                ending = Timers.NONE;
                if (!isLimited() || seen != limits) deadline = Timers.NEVER;
                if (isLimited() && deadline == Timers.NEVER) deadline = clock() + Math.min(pool.keepAliveNanos(), Timers.LONGEST);
                seen = limits;
                timedOut = !await(deadline);
                if (timedOut) deadline = Timers.NEVER;
            }
        } finally {
            passOn();
            lock.unlock();
        }
    }

    /** A worker that does nothing waits for so long only. Where it is the last, and tasks are queued, one of them is worth waiting for. */
    private boolean isLimited() {
        return pool.mayTimeOut(taken) && (taken > 1 || isQueueEmpty());
    }

    /** Whether a worker is to go: as getTask of Java's ThreadPoolExecutor has it. */
    private boolean mustGo(boolean timedOut) {
        if (shut && (stopped || isQueueEmpty())) return true;
        return (timedOut && pool.mayTimeOut(taken) || pool.isTooLarge(taken)) && (taken > 1 || isQueueEmpty());
    }

    /** Begins the next task for a worker, and ends its run before, in one call of the timers. The answer is false where none is due. */
    private boolean begin(Worker worker, int ending) {
        long clock = clock();
        boolean isDue = timers.first() <= clock;
        ScheduledTask<?> task = keptNow(clock);
        if (task != null) {
            if (ending != Timers.NONE) timers.cycle(clock, worker.id, ending, false);
        } else {
            if (ending == Timers.NONE && !isDue) return false;
            int place = timers.cycle(clock, worker.id, ending, isDue);
            if (place == Timers.IDLE) return false;
            task = table.at(place);
            task.runs(worker.id);
            waiting--;
        }
        worker.task = task;
        worker.failed = false;
        active++;
        return true;
    }

    /** The first kept task, where it is due, and before what waits. As in Java's class a worker takes it, and finds it cancelled. */
    private ScheduledTask<?> keptNow(long clock) {
        ScheduledTask<?> first = kept.first();
        if (first == null || first.time() - base > Math.min(clock, timers.first())) return null;
        return kept.takeFirst();
    }

    /** A worker has done what it was given. The answer is how its run ended; the task is out of the table then. */
    private int leaveTask(Worker worker) {
        ScheduledTask<?> task = worker.task;
        if (task == null) return Timers.NONE;
        worker.task = null;
        active--;
        completed++;
        if (!task.isRunBy(worker.id)) return Timers.NONE;
        if (task.isCancelled()) tell(task);
        table.take(task.place);
        task.goes();
        return task.isPeriodic() || worker.failed || !task.isDone() ? Timers.FAILURE : Timers.VALUE;
    }

    /** Waits for a task that is due, or to be called. The answer is false where the deadline has come, a moment of the clock. */
    private boolean await(long deadline) {
        long due = firstDue(), now = clock();
        if (due <= now) return true;
        if (deadline <= now) return false;
        try {
            if (due <= deadline && due != Timers.NEVER && leader == null) lead(due - now);
            else if (deadline != Timers.NEVER) available.awaitNanos(deadline - now);
            else available.await();
        } catch (InterruptedException woken) {
            // As in Java's class, it looks again: an interrupt is for a run, and the end of the pool is a state.
        }
        return true;
    }

    private void lead(long span) throws InterruptedException {
        Thread self = Thread.currentThread();
        leader = self;
        try {
            available.awaitNanos(span);
        } finally {
            if (leader == self) leader = null;
        }
    }

    /** A worker leaves the lock: another one is to lead, where there is something to wait for. */
    private void passOn() {
        if (leader == null && (waiting != 0 || kept.size() != 0)) available.signal();
    }

    /** A run of a periodic task has ended well, within its worker or elsewhere: the task waits for its next run, or has ended. */
    void again(ScheduledTask<?> task) {
        endRun(task, false);
    }

    /** A run of a periodic task was refused, since one that the program made goes on. Where it is one of the timers' it counts as made. */
    void passedOver(ScheduledTask<?> task) {
        endRun(task, true);
    }

    private void endRun(ScheduledTask<?> task, boolean isPassedOver) {
        Worker added = null;
        boolean swept = false;
        lock();
        try {
            if (isPassedOver ? !isOfCaller(task) : !task.isRunning()) return; // the run was not one of the timers'
            if (task.isCancelled()) tell(task);
            long before = firstDue();
            timers.cycle(clock(), task.worker(), Timers.VALUE, false);
            if (timers.outcome() == Timers.AGAIN) {
                task.dueAt(base + timers.next());
                task.waits();
                waiting++;
                queued(timers.next(), before);
                added = missingWorker();
            } else {
                swept = timers.outcome() == Timers.ENDED;
                task.dueAt((task.kind() == Timers.RATE ? task.time() : base + timers.now()) + task.span());
                table.take(task.place);
                task.goes();
            }
        } finally {
            lock.unlock();
        }
        if (swept) task.outer.cancel(false);
        start(added);
    }

    /** The run of a task has failed. It only tells the timers so. */
    void failed(ScheduledTask<?> task) {
        lock();
        try {
            if (isOfCaller(task)) workers[task.worker()].failed = true;
        } finally {
            lock.unlock();
        }
    }

    /** Whether a run of a task is under way that the timers gave to the thread which calls. */
    private boolean isOfCaller(ScheduledTask<?> task) {
        return task.isRunning() && workers[task.worker()].thread == Thread.currentThread();
    }

    // ---- threads

    /** A worker without a thread, where there are fewer than the core, or none: as ensurePrestart of Java's class. */
    private Worker missingWorker() {
        return newWorker(Math.max(1, pool.coreSize()));
    }

    /** A new worker, where there are fewer than so many, and the pool has use for one; else null. */
    private Worker newWorker(int most) {
        if (taken >= Math.min(most, timers.workers()) || shut && (stopped || isQueueEmpty())) return null;
        int id = 0;
        while (workers[id] != null) id++;
        workers[id] = new Worker(pool, id);
        taken++;
        return workers[id];
    }

    /** A worker gives its number up, which another one may have at once. Its thread, where it has one, only ends from then on. */
    private void giveUp(Worker worker) {
        if (workers[worker.id] != worker) return;
        workers[worker.id] = null;
        taken--;
    }

    /** Starts a thread where there are fewer than so many. The answer is whether it did. */
    boolean startWorker(int most) {
        Worker worker;
        lock();
        try {
            worker = newWorker(most);
        } finally {
            lock.unlock();
        }
        return start(worker);
    }

    /** Makes and starts the thread of a worker, where there is one. Where the factory gives none, or throws, the worker goes. */
    private boolean start(Worker worker) {
        if (worker == null) return false;
        boolean started = false;
        try {
            Thread thread = pool.getThreadFactory().newThread(worker);
            if (thread != null && join(worker, thread)) {
                thread.start();
                started = true;
            }
        } finally {
            if (!started) leave(worker);
        }
        return started;
    }

    private boolean join(Worker worker, Thread thread) {
        lock();
        try {
            if (stopped) return false;
            if (thread.getState() != Thread.State.NEW) throw new IllegalThreadStateException();
            worker.thread = thread;
            largest = Math.max(largest, ++threads);
            return true;
        } finally {
            lock.unlock();
        }
    }

    /** A worker has no thread any more, since it never got one. */
    private void leave(Worker worker) {
        boolean last;
        lock();
        try {
            giveUp(worker);
            if (worker.thread != null) threads--;
            last = ends();
            passOn();
        } finally {
            lock.unlock();
        }
        if (last) tidy();
    }

    /** A worker's thread ends: as it was to go, or abruptly, by what a hook or a task threw. A new one may come in its place. */
    void exit(Worker worker, boolean abruptly) {
        Worker next = null;
        boolean last;
        lock();
        try {
            if (abruptly) endAbruptly(worker);
            if (worker.thread != null) threads--;
            last = ends();
            if (!last && !stopped && (abruptly || taken < least())) next = newWorker(pool.maximumSize());
            passOn();
        } finally {
            lock.unlock();
        }
        if (last) tidy();
        start(next);
    }

    private void endAbruptly(Worker worker) {
        int ending = leaveTask(worker);
        if (ending != Timers.NONE) timers.cycle(clock(), worker.id, ending, false);
        giveUp(worker);
    }

    private int least() {
        int least = pool.mayTimeOut(0) ? 0 : pool.coreSize();
        return least == 0 && !isQueueEmpty() ? 1 : least;
    }

    /** Sizes or times have changed: who waits looks at them. */
    void limitsChanged() {
        lock();
        try {
            limits++;
            available.signalAll();
        } finally {
            lock.unlock();
        }
    }

    // ---- policies and shutdowns

    boolean continues() {
        return continues;
    }

    boolean executes() {
        return executes;
    }

    boolean removes() {
        return removes;
    }

    void setRemoves(boolean value) {
        removes = value;
    }

    /** Sets the policy of periodic tasks, or that of delayed ones. What it ends is cancelled. */
    void setPolicy(int which, boolean value) {
        List<ScheduledTask<?>> swept = List.of();
        boolean last = false;
        lock();
        try {
            if (!over) {
                swept = swept(which, value);
                if (shut && !value) kept.clear();
                last = endsAfterSweep();
            }
            if (which == Timers.CONTINUE) continues = value;
            else executes = value;
        } finally {
            lock.unlock();
        }
        end(swept, last);
    }

    /** Cancels what was swept, and ends the pool where that was the last. */
    private void end(List<ScheduledTask<?>> swept, boolean last) {
        try {
            cancelAll(swept);
        } finally {
            if (last) tidy();
        }
    }

    /** What the timers end by a policy or a shutdown. */
    private List<ScheduledTask<?>> swept(int which, boolean value) {
        List<ScheduledTask<?>> swept = new ArrayList<>(shut || which == Timers.SHUTDOWN ? table.size() : 0);
        sweep(which, value, swept);
        return swept;
    }

    /** Calls the timers for a policy or a shutdown, and moves what it ended from the table into a list that has room for it. */
    private void sweep(int which, boolean value, List<ScheduledTask<?>> into) {
        int n = timers.rule(clock(), which, value);
        for (int from = 0; from < n;) {
            int got = timers.ended(from);
            for (int i = 0; i < got; i++) {
                ScheduledTask<?> task = table.take(timers.endedPlace(i));
                task.goes();
                into.add(task);
            }
            from += got;
        }
        waiting -= n;
    }

    private boolean endsAfterSweep() {
        available.signalAll();
        return ends();
    }

    /** Shuts the pool down in order. What that ends is cancelled. As in Java's class, a further call still drops what is kept. */
    void shutdown() {
        List<ScheduledTask<?>> swept;
        boolean last;
        lock();
        try {
            if (over) return;
            swept = swept(Timers.SHUTDOWN, true);
            kept.clear();
            shut = true;
            last = endsAfterSweep();
        } finally {
            lock.unlock();
        }
        end(swept, last);
    }

    /** Shuts the pool down at once, and interrupts its workers. The answer is what stood in the queue, by number, which is not cancelled. */
    List<ScheduledTask<?>> shutdownNow() {
        List<ScheduledTask<?>> drained;
        boolean last;
        lock();
        try {
            if (over) return List.of();
            drained = new ArrayList<>(table.size() + kept.size());
            kept.forEach(drained::add);
            sweep(Timers.SHUTDOWN_NOW, true, drained);
            kept.clear();
            shut = stopped = true;
            interruptAll();
            last = endsAfterSweep();
        } finally {
            lock.unlock();
        }
        if (last) tidy();
        drained.sort(Comparator.comparingLong(task -> task.number));
        return drained;
    }

    private void interruptAll() {
        for (Worker worker : workers) {
            if (worker == null || worker.thread == null || worker.thread.isInterrupted()) continue;
            try {
                worker.thread.interrupt();
            } catch (SecurityException ignored) {
                // As Java's class, best effort.
            }
        }
    }

    /** Cancels all, also where one throws; what the first one threw is thrown at the end. */
    private static void cancelAll(List<ScheduledTask<?>> tasks) {
        Throwable thrown = null;
        for (ScheduledTask<?> task : tasks) {
            try {
                task.outer.cancel(false);
            } catch (RuntimeException | Error failure) {
                if (thrown == null) thrown = failure;
            }
        }
        if (thrown instanceof Error) throw (Error) thrown;
        if (thrown != null) throw (RuntimeException) thrown;
    }

    // ---- the end

    /** Whether all is over now, and was not before; the timers are freed then. Workers that have nothing to wait for are called. */
    private boolean ends() {
        if (over || !shut || !stopped && !isQueueEmpty()) return false;
        if (taken != 0 || threads != 0) {
            available.signalAll();
            return false;
        }
        if (!timers.isTerminated()) throw new AssertionError("the timers are not terminated, and the pool is");
        over = true;
        table.clear();
        timers.close();
        return true;
    }

    /** Calls terminated(), and then whoever waits for that. */
    private void tidy() {
        try {
            pool.end();
        } finally {
            lock();
            try {
                terminated = true;
                ends.signalAll();
            } finally {
                lock.unlock();
            }
        }
    }

    boolean isShut() {
        return shut;
    }

    boolean isStopped() {
        return stopped;
    }

    boolean isTerminated() {
        return terminated;
    }

    boolean awaitTermination(long nanos) throws InterruptedException {
        lock();
        try {
            for (long left = nanos; !terminated; left = ends.awaitNanos(left)) if (left <= 0) return false;
            return true;
        } finally {
            lock.unlock();
        }
    }

    // ---- counts

    /** How many threads there are. */
    int poolSize() {
        lock();
        try {
            return over ? 0 : threads;
        } finally {
            lock.unlock();
        }
    }

    int largestPoolSize() {
        lock();
        try {
            return largest;
        } finally {
            lock.unlock();
        }
    }

    /** How many tasks were run, are run, and stand in the queue, as three numbers. */
    long[] counts() {
        lock();
        try {
            return new long[] {completed, active, waiting + kept.size()};
        } finally {
            lock.unlock();
        }
    }

    /** The threads that there are. */
    Thread[] threads() {
        lock();
        try {
            return Arrays.stream(workers).filter(worker -> worker != null && worker.thread != null).map(worker -> worker.thread).toArray(Thread[]::new);
        } finally {
            lock.unlock();
        }
    }

    // ---- records

    /** Whether a recording may begin now. */
    boolean mayRecord() {
        lock();
        try {
            return timers.numbers() == 0 && !shut && !recorded && Arrays.stream(workers).skip(Timers.MOST_TRACED).allMatch(Objects::isNull);
        } finally {
            lock.unlock();
        }
    }

    /** From now on, calls and what they are answered go to a recorder. The answer is false where it is too late for that. */
    boolean recordTo(Recorder recorder) {
        lock();
        try {
            if (!mayRecord()) return false;
            Timers before = timers;
            timers = new RecordedTimers(recorder);
            recorded = true;
            before.close();
            timers.rule(0, Timers.REMOVE, true);
            if (continues) timers.rule(0, Timers.CONTINUE, true);
            if (!executes) timers.rule(0, Timers.EXECUTE, false);
            return true;
        } finally {
            lock.unlock();
        }
    }
}
