package sched.timers;

import java.io.IOException;
import java.nio.file.Path;
import java.util.ArrayList;
import java.util.List;
import java.util.Objects;
import java.util.concurrent.BlockingQueue;
import java.util.concurrent.Callable;
import java.util.concurrent.Executors;
import java.util.concurrent.Future;
import java.util.concurrent.RejectedExecutionHandler;
import java.util.concurrent.RunnableScheduledFuture;
import java.util.concurrent.ScheduledFuture;
import java.util.concurrent.ScheduledThreadPoolExecutor;
import java.util.concurrent.ThreadFactory;
import java.util.concurrent.TimeUnit;
import java.util.function.Consumer;

/**
 * A {@link ScheduledThreadPoolExecutor} over proved timers: when a task is due, which one runs next, and what the policies and the
 * shutdowns end, is decided by the library behind {@code include/timers.h}, each call of which is proved to keep its contract. Threads,
 * wake-ups and futures are Java, and tested, as is the end of the pool, to which the library has to agree.
 *
 * <p>It stands wherever Java's class is asked for, and does what the Java SE 17 documentation of that class, and of those that it extends,
 * says of each method: a program changes a constructor, or what a class extends. Thread factories, handlers of rejections,
 * {@code beforeExecute}, {@code afterExecute}, {@code terminated} and {@code decorateTask}, growth, core size 0, time to keep alive and
 * interrupts are as there.
 *
 * <pre>{@code
 * ScheduledThreadPoolExecutor pool = new TimersThreadPoolExecutor(4);
 * ScheduledFuture<?> timeout = pool.schedule(() -> close(connection), 30, TimeUnit.SECONDS);
 * timeout.cancel(false);
 * pool.shutdown();
 * }</pre>
 *
 * <h2>What differs from Java's class</h2>
 * <ol>
 * <li>It has at most {@value #MOST_WORKERS} threads: a larger core size is refused by an {@link IllegalArgumentException}.
 * <li>{@link #shutdownNow} lists tasks in the order of their submission, and not as they lie in a heap.
 * <li>{@link #getQueue} is a view, whose iterator has what stood there: {@code add}, {@code offer}, {@code put}, {@code take} and the
 *     {@code poll} that waits are refused by an {@link UnsupportedOperationException}. What is taken out by it may end a pool that is shut,
 *     where Java's waits until a worker looks.
 * <li>Delays and periods above 2<sup>62</sup> nanoseconds, 146 years, are cut to that, which {@code getDelay} shows.
 * <li>What {@link #decorateTask} makes of a task runs, is cancelled, and stands in the queue in its place. When it runs is told by the
 *     task within, also where the other one has a {@code getDelay} or {@code compareTo} of its own; its {@code run} has to run the task
 *     within before it returns, if a periodic one is to run again; and a cancel of the task within removes it by the policy.
 * <li>A periodic task whose {@code run} the program calls does not come into the queue once more. While such a run goes on, those that
 *     are due are passed over.
 * </ol>
 *
 * <h2>Memory</h2>
 * A task has 110 to 170 bytes outside the heap, as the table is filled, which are used again once it is over, and freed with the pool: once that is terminated, or
 * unreachable. As with Java's class, a pool is reachable while it has threads. Where no memory is left for a task, its submission throws
 * an {@link OutOfMemoryError}, and nothing has changed. Where a thread for it cannot be made or started, the submission throws what the
 * thread factory or the start throws, and the task stands in the queue, as with Java's class.
 *
 * <h2>Where it runs</h2>
 * On Linux with glibc, on x86-64 of level 2 or above. Elsewhere the constructors throw an {@link UnsupportedOperationException} that says
 * what is missing, as {@link #missing} does without. The property {@code sched.timers.library} names the file of the library where it is
 * not to be taken from the jar: a JVM loads that file for one class loader alone.
 */
public class TimersThreadPoolExecutor extends ScheduledThreadPoolExecutor {
    /** The greatest core size, and the most threads that a pool has. Ours: Java's class has no bound below 2<sup>29</sup>. */
    public static final int MOST_WORKERS = Timers.MOST_WORKERS;

    private final Desk desk;
    private final QueueView queue;
    private volatile Recorder recorder;

    /**
     * A pool with the default thread factory, which throws a {@link java.util.concurrent.RejectedExecutionException} for a task that it
     * rejects.
     *
     * @param corePoolSize  the number of threads that are kept, 0 to {@value #MOST_WORKERS}
     * @throws IllegalArgumentException where the core size is not in that range
     * @throws UnsupportedOperationException where the library does not run on this machine
     * @throws OutOfMemoryError where there is no memory outside the heap
     */
    public TimersThreadPoolExecutor(int corePoolSize) {
        this(corePoolSize, Executors.defaultThreadFactory(), new AbortPolicy());
    }

    /**
     * A pool that throws a {@link java.util.concurrent.RejectedExecutionException} for a task that it rejects. It throws what the other
     * constructors throw.
     *
     * @param corePoolSize  the number of threads that are kept, 0 to {@value #MOST_WORKERS}
     * @param threadFactory  makes its threads; it is called without a lock
     * @throws NullPointerException where the factory is null
     */
    public TimersThreadPoolExecutor(int corePoolSize, ThreadFactory threadFactory) {
        this(corePoolSize, threadFactory, new AbortPolicy());
    }

    /**
     * A pool with the default thread factory. It throws what the other constructors throw.
     *
     * @param corePoolSize  the number of threads that are kept, 0 to {@value #MOST_WORKERS}
     * @param handler  is told of each task that is rejected, since the pool is shut
     * @throws NullPointerException where the handler is null
     */
    public TimersThreadPoolExecutor(int corePoolSize, RejectedExecutionHandler handler) {
        this(corePoolSize, Executors.defaultThreadFactory(), handler);
    }

    /**
     * A pool.
     *
     * @param corePoolSize  the number of threads that are kept, 0 to {@value #MOST_WORKERS}
     * @param threadFactory  makes its threads; it is called without a lock
     * @param handler  is told of each task that is rejected, since the pool is shut
     * @throws IllegalArgumentException where the core size is not in that range
     * @throws NullPointerException where the factory or the handler is null
     * @throws UnsupportedOperationException where the library does not run on this machine
     * @throws OutOfMemoryError where there is no memory outside the heap
     */
    public TimersThreadPoolExecutor(int corePoolSize, ThreadFactory threadFactory, RejectedExecutionHandler handler) {
        super(bounded(corePoolSize), threadFactory, handler);
        NativeLibrary.require();
        desk = new Desk(this);
        queue = new QueueView(desk);
    }

    private static int bounded(int corePoolSize) {
        if (corePoolSize > MOST_WORKERS)
            throw new IllegalArgumentException("a TimersThreadPoolExecutor has at most " + MOST_WORKERS + " threads, and " + corePoolSize + " were asked for");
        return corePoolSize;
    }

    /**
     * What is missing for a pool on this machine: a sentence, or null where nothing is. Ours.
     *
     * @return what the constructors' exception says
     */
    public static String missing() {
        return NativeLibrary.missing();
    }

    // ---- submissions

    @Override
    public ScheduledFuture<?> schedule(Runnable command, long delay, TimeUnit unit) {
        Objects.requireNonNull(command);
        long wait = wait(delay, unit), asked = System.nanoTime();
        ScheduledTask<Void> task = new ScheduledTask<>(desk, command, null, asked + wait, 0);
        return submitted(task, decorateTask(command, task), asked, wait);
    }

    @Override
    public <V> ScheduledFuture<V> schedule(Callable<V> callable, long delay, TimeUnit unit) {
        Objects.requireNonNull(callable);
        long wait = wait(delay, unit), asked = System.nanoTime();
        ScheduledTask<V> task = new ScheduledTask<>(desk, callable, asked + wait);
        return submitted(task, decorateTask(callable, task), asked, wait);
    }

    @Override
    public ScheduledFuture<?> scheduleAtFixedRate(Runnable command, long initialDelay, long period, TimeUnit unit) {
        return periodic(command, initialDelay, period, unit, 1);
    }

    @Override
    public ScheduledFuture<?> scheduleWithFixedDelay(Runnable command, long initialDelay, long delay, TimeUnit unit) {
        return periodic(command, initialDelay, delay, unit, -1);
    }

    private ScheduledFuture<?> periodic(Runnable command, long first, long period, TimeUnit unit, int sign) {
        Objects.requireNonNull(command);
        Objects.requireNonNull(unit);
        if (period <= 0) throw new IllegalArgumentException();
        long wait = wait(first, unit), asked = System.nanoTime();
        ScheduledTask<Void> task = new ScheduledTask<>(desk, command, null, asked + wait, sign * unit.toNanos(period));
        return submitted(task, decorateTask(command, task), asked, wait);
    }

    /** A delay in nanoseconds, from 0 to the longest. */
    private static long wait(long delay, TimeUnit unit) {
        return Math.max(0, Math.min(unit.toNanos(delay), Timers.LONGEST));
    }

    private <V> ScheduledFuture<V> submitted(ScheduledTask<V> task, RunnableScheduledFuture<V> outer, long asked, long wait) {
        task.outer = Objects.requireNonNull(outer);
        if (!desk.submit(task, asked, wait)) getRejectedExecutionHandler().rejectedExecution(outer, this);
        return outer;
    }

    @Override
    public void execute(Runnable command) {
        schedule(command, 0, TimeUnit.NANOSECONDS);
    }

    @Override
    public Future<?> submit(Runnable task) {
        return schedule(task, 0, TimeUnit.NANOSECONDS);
    }

    @Override
    public <T> Future<T> submit(Runnable task, T result) {
        return schedule(Executors.callable(task, result), 0, TimeUnit.NANOSECONDS);
    }

    @Override
    public <T> Future<T> submit(Callable<T> task) {
        return schedule(task, 0, TimeUnit.NANOSECONDS);
    }

    // ---- for workers and the desk

    /** What a worker's thread does, until the worker is to go. */
    final void work(Worker worker) {
        boolean abruptly = true;
        try {
            while (desk.take(worker)) perform(worker.task.outer);
            abruptly = false;
        } finally {
            desk.exit(worker, abruptly);
        }
    }

    private void perform(Runnable task) {
        Thread self = Thread.currentThread();
        // Interrupted where the pool is stopped, and else not: the second look is for a stop that comes as the first is cleared.
        if ((desk.isStopped() || Thread.interrupted() && desk.isStopped()) && !self.isInterrupted()) self.interrupt();
        beforeExecute(self, task);
        try {
            task.run();
            afterExecute(task, null);
        } catch (Throwable thrown) {
            afterExecute(task, thrown);
            throw thrown;
        }
    }

    // What a subclass overrides is not asked, as Java's class asks its own fields.

    final int coreSize() {
        return super.getCorePoolSize();
    }

    final int maximumSize() {
        return super.getMaximumPoolSize();
    }

    final boolean isTooLarge(int threads) {
        return threads > super.getMaximumPoolSize();
    }

    final boolean mayTimeOut(int threads) {
        return threads > super.getCorePoolSize() || super.allowsCoreThreadTimeOut();
    }

    final long keepAliveNanos() {
        return super.getKeepAliveTime(TimeUnit.NANOSECONDS);
    }

    /** Calls the hook. */
    final void end() {
        terminated();
    }

    // ---- policies

    @Override
    public void setContinueExistingPeriodicTasksAfterShutdownPolicy(boolean value) {
        desk.setPolicy(Timers.CONTINUE, value);
    }

    @Override
    public boolean getContinueExistingPeriodicTasksAfterShutdownPolicy() {
        return desk.continues();
    }

    @Override
    public void setExecuteExistingDelayedTasksAfterShutdownPolicy(boolean value) {
        desk.setPolicy(Timers.EXECUTE, value);
    }

    @Override
    public boolean getExecuteExistingDelayedTasksAfterShutdownPolicy() {
        return desk.executes();
    }

    @Override
    public void setRemoveOnCancelPolicy(boolean value) {
        desk.setRemoves(value);
    }

    @Override
    public boolean getRemoveOnCancelPolicy() {
        return desk.removes();
    }

    // ---- the end

    @Override
    public void shutdown() {
        checkShutdownAccess();
        desk.shutdown();
    }

    /**
     * {@inheritDoc} The list has them in the order of their submission, with those that were cancelled and stood in the queue still. None
     * of them is cancelled by this call, as in OpenJDK.
     */
    @Override
    public List<Runnable> shutdownNow() {
        checkShutdownAccess();
        List<ScheduledTask<?>> drained = desk.shutdownNow();
        List<Runnable> tasks = new ArrayList<>(drained.size());
        for (ScheduledTask<?> task : drained) tasks.add(task.outer);
        return tasks;
    }

    @SuppressWarnings({"deprecation", "removal"})
    private void checkShutdownAccess() {
        SecurityManager security = System.getSecurityManager();
        if (security == null) return;
        security.checkPermission(new RuntimePermission("modifyThread"));
        for (Thread thread : desk.threads()) security.checkAccess(thread);
    }

    @Override
    public boolean isShutdown() {
        return desk.isShut();
    }

    @Override
    public boolean isTerminating() {
        return desk.isShut() && !desk.isTerminated();
    }

    @Override
    public boolean isTerminated() {
        return desk.isTerminated();
    }

    @Override
    public boolean awaitTermination(long timeout, TimeUnit unit) throws InterruptedException {
        return desk.awaitTermination(unit.toNanos(timeout));
    }

    // ---- sizes

    /** {@inheritDoc} It is at most {@value #MOST_WORKERS}. */
    @Override
    public void setCorePoolSize(int corePoolSize) {
        int before = coreSize();
        super.setCorePoolSize(bounded(corePoolSize));
        if (corePoolSize < before) desk.limitsChanged();
        for (int more = Math.min(corePoolSize - before, desk.queueSize()); more > 0 && desk.startWorker(corePoolSize); more--)
            if (desk.queueSize() == 0) break;
    }

    @Override
    public void setMaximumPoolSize(int maximumPoolSize) {
        super.setMaximumPoolSize(maximumPoolSize);
        desk.limitsChanged();
    }

    @Override
    public void setKeepAliveTime(long time, TimeUnit unit) {
        super.setKeepAliveTime(time, unit);
        desk.limitsChanged();
    }

    @Override
    public void allowCoreThreadTimeOut(boolean value) {
        super.allowCoreThreadTimeOut(value);
        desk.limitsChanged();
    }

    @Override
    public boolean prestartCoreThread() {
        return desk.startWorker(coreSize());
    }

    @Override
    public int prestartAllCoreThreads() {
        int started = 0;
        while (desk.startWorker(coreSize())) started++;
        return started;
    }

    // ---- counts

    @Override
    public int getPoolSize() {
        return desk.poolSize();
    }

    @Override
    public int getLargestPoolSize() {
        return desk.largestPoolSize();
    }

    @Override
    public int getActiveCount() {
        return (int) desk.counts()[1];
    }

    @Override
    public long getCompletedTaskCount() {
        return desk.counts()[0];
    }

    @Override
    public long getTaskCount() {
        long[] counts = desk.counts();
        return counts[0] + counts[1] + counts[2];
    }

    @Override
    public String toString() {
        long[] counts = desk.counts();
        String state = !desk.isShut() ? "Running" : desk.isTerminated() ? "Terminated" : "Shutting down";
        return getClass().getName() + "@" + Integer.toHexString(hashCode()) + "[" + state + ", pool size = " + desk.poolSize()
            + ", active threads = " + counts[1] + ", queued tasks = " + counts[2] + ", completed tasks = " + counts[0] + "]";
    }

    // ---- the queue

    /**
     * A view of the queue, whose elements are as the documentation of Java's class has them. An iterator goes over what stood there when
     * it was made, in no order. What finds the first task ({@code peek}, {@code poll}) looks at all, under the lock of the pool.
     *
     * @return the view, the same at each call: what puts a task in, or waits for one, throws an {@link UnsupportedOperationException}
     */
    @Override
    public BlockingQueue<Runnable> getQueue() {
        return queue;
    }

    @Override
    public boolean remove(Runnable task) {
        return queue.remove(task);
    }

    @Override
    public void purge() {
        desk.dropKept();
        for (ScheduledTask<?> task : desk.queue()) if (task.outer.isCancelled()) desk.remove(task);
    }

    // ---- records

    /**
     * Records from now on what the pool's timers are asked and what they answer: two texts that the program {@code sched} takes, by
     * {@code sched check PLAN TRACE --workers 64} and {@code sched draw}. A pool that records starts no thread beyond its 64th, which is
     * as many as a trace may have. Ours.
     *
     * <p>Consumers are called under the lock of the pool, one line after the other: they are to be quick, and may not call the pool. Where
     * one throws, the recording ends, the pool goes on, and {@link #recordingFailure} tells what was thrown. What {@code sched check} takes
     * is bounded: 65,536 calls, a plan of 1 MiB, which some 10,000 calls fill, a trace of 64 MiB.
     *
     * <p>The timers have the policy to remove, whichever the pool has: what it keeps in its queue after a cancel is Java's own. A task that
     * {@link #remove} takes out is cancelled in the trace.
     *
     * @param trace  is given each line of the trace, without its end
     * @param plan  is given each line of the plan, without its end
     * @throws IllegalStateException where a task was submitted before, the pool is shut, records already, or has more than 64 threads:
     *     nothing has changed
     */
    public void recordTo(Consumer<String> trace, Consumer<String> plan) {
        recordTo(new Recorder(Objects.requireNonNull(trace), Objects.requireNonNull(plan)));
    }

    /**
     * Records into two files, which are made, or emptied. Each line is written at once, and the files are closed once the pool is
     * terminated. Else as {@link #recordTo(Consumer, Consumer)}. Ours.
     *
     * @param trace  the file of the trace
     * @param plan  the file of the plan
     * @throws IOException where a file cannot be made: nothing is recorded
     * @throws IllegalStateException as there
     */
    public void recordTo(Path trace, Path plan) throws IOException {
        if (!desk.mayRecord()) throw tooLateToRecord();
        recordTo(Recorder.into(trace, plan));
    }

    private static IllegalStateException tooLateToRecord() {
        return new IllegalStateException("a recording begins before the first task, once, and while the pool is not shut and has at most 64 threads");
    }

    private void recordTo(Recorder chosen) {
        if (!desk.recordTo(chosen)) {
            chosen.close();
            throw tooLateToRecord();
        }
        recorder = chosen;
    }

    /**
     * What ended the recording before the pool's end. Ours.
     *
     * @return what a consumer threw, or what kept a line from a file; null where nothing did
     */
    public Throwable recordingFailure() {
        Recorder chosen = recorder;
        return chosen == null ? null : chosen.failure();
    }
}
