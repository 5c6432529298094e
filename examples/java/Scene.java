import static java.util.concurrent.TimeUnit.MILLISECONDS;
import static java.util.concurrent.TimeUnit.NANOSECONDS;

import java.util.ArrayList;
import java.util.List;
import java.util.concurrent.Callable;
import java.util.concurrent.ExecutionException;
import java.util.concurrent.RejectedExecutionException;
import java.util.concurrent.ScheduledFuture;
import java.util.concurrent.ScheduledThreadPoolExecutor;
import java.util.concurrent.Semaphore;
import java.util.concurrent.SynchronousQueue;
import java.util.concurrent.locks.LockSupport;
import java.util.function.Function;

/**
 * A ScheduledThreadPoolExecutor with one thread, which is watched: what is asked of it, and what it does, is printed as the
 * lines of a trace.
 *
 * <p>Moments are counted in steps of 250 milliseconds. All that comes within a step has the moment at which the step begins. So
 * a trace is the same on each run in which nothing comes a step late; a scene in which something does ends with an exception.
 *
 * <p>Nothing tells that time goes by. So a line "clock" stands before the first start or finish of a moment, and at the end.
 */
final class Scene implements AutoCloseable {
    private static final long STEP = MILLISECONDS.toNanos(250);

    private final Pool pool = new Pool();
    private final List<ScheduledFuture<?>> tasks = new ArrayList<>();
    private final SynchronousQueue<Ending> endings = new SynchronousQueue<>();
    private final Semaphore ended = new Semaphore(0);
    private final long start = System.nanoTime();
    private long reached;
    private long shown = -1;
    private boolean isMuted;
    private boolean isLate;

    /** Plays a scene of which nothing is printed, so that the first steps of the next one take no longer than others. */
    static void warmUp() throws InterruptedException {
        try (Scene scene = new Scene()) {
            scene.isMuted = true;
            scene.schedule(0);
            scene.finishOk(0);
            scene.cancel(0);
            scene.shutdown();
            scene.ask();
        }
    }

    /** Waits until a moment has come. */
    void at(long moment) {
        expect(reached);
        long target = start + moment * STEP;
        while (target - System.nanoTime() > 0) {
            LockSupport.parkNanos(target - System.nanoTime());
        }
        reached = moment;
        expect(moment);
    }

    /** The end of the trace. */
    synchronized void end() {
        expect(reached);
        clock(reached);
        if (isLate) {
            throw new IllegalStateException("late: something came after its step");
        }
    }

    void schedule(long delay) {
        submit("schedule", job -> pool.schedule((Callable<Long>) job, delay * STEP, NANOSECONDS));
    }

    void rate(long first, long period) {
        submit("rate", job -> pool.scheduleAtFixedRate(job::call, first * STEP, period * STEP, NANOSECONDS));
    }

    void fixed(long first, long delay) {
        submit("fixed", job -> pool.scheduleWithFixedDelay(job::call, first * STEP, delay * STEP, NANOSECONDS));
    }

    synchronized void cancel(int task) {
        ScheduledFuture<?> future = tasks.get(task);
        line("cancel %d %s", task, future == null ? "none" : yes(future.cancel(false)));
    }

    synchronized void setContinue(boolean value) {
        sweep("policy continue " + value, () -> pool.setContinueExistingPeriodicTasksAfterShutdownPolicy(value));
    }

    synchronized void setExecute(boolean value) {
        sweep("policy execute " + value, () -> pool.setExecuteExistingDelayedTasksAfterShutdownPolicy(value));
    }

    synchronized void setRemove(boolean value) {
        sweep("policy remove " + value, () -> pool.setRemoveOnCancelPolicy(value));
    }

    synchronized void shutdown() {
        sweep(pool.isShutdown() ? "shutdown again" : "shutdown", pool::shutdown);
    }

    /** The lines "end" are the list that Java gives, in its order. */
    synchronized void shutdownNow() {
        List<Runnable> waiting = pool.shutdownNow();
        line("shutdown now");
        waiting.forEach(task -> line("end %d", tasks.indexOf(task)));
    }

    synchronized void ask() {
        line("ask queue %d running %d shutdown %s terminated %s", pool.getQueue().size(), pool.getActiveCount(),
                yes(pool.isShutdown()), yes(pool.isTerminated()));
    }

    /** The run under way ends with a value. */
    void finishOk(long value) throws InterruptedException {
        finish(new Ending(true, value));
    }

    /** The run under way fails with a code. */
    void finishFail(long code) throws InterruptedException {
        finish(new Ending(false, code));
    }

    private void finish(Ending ending) throws InterruptedException {
        endings.put(ending);
        ended.acquire();
    }

    @Override
    public void close() {
        synchronized (this) {
            isMuted = true;
        }
        pool.shutdownNow();
    }

    private synchronized void submit(String kind, Function<Job, ScheduledFuture<?>> call) {
        int task = tasks.size();
        tasks.add(null);
        try {
            ScheduledFuture<?> future = call.apply(new Job(task));
            tasks.set(task, future);
            line("submit %d %s due %d", task, kind, due(future));
        } catch (IllegalArgumentException refusal) {
            line("refuse %d illegal", task);
        } catch (RejectedExecutionException refusal) {
            line("refuse %d rejected", task);
        }
    }

    /** Makes a call that may end tasks: those that are cancelled by it, in the order in which they were submitted. */
    private void sweep(String call, Runnable action) {
        List<ScheduledFuture<?>> live = tasks.stream().filter(task -> task != null && !task.isCancelled()).toList();
        action.run();
        line(call);
        live.stream().filter(ScheduledFuture::isCancelled).forEach(task -> line("end %d", tasks.indexOf(task)));
    }

    /** What comes now was to come at this moment. */
    private synchronized void expect(long moment) {
        isLate |= now() > moment;
    }

    /** A line of what the thread does. */
    private synchronized void event(String form, Object... words) {
        long moment = now();
        clock(moment);
        print(moment, form.formatted(words));
    }

    private void clock(long moment) {
        if (moment > shown) {
            shown = moment;
            print(moment, "clock");
        }
    }

    private void line(String form, Object... words) {
        print(now(), form.formatted(words));
    }

    private void print(long moment, String line) {
        if (!isMuted) {
            System.out.println(moment + " " + line);
        }
    }

    private long now() {
        return (System.nanoTime() - start) / STEP;
    }

    private long due(ScheduledFuture<?> future) {
        long delay = future.getDelay(NANOSECONDS);
        return (System.nanoTime() - start + delay) / STEP;
    }

    private static String yes(boolean value) {
        return value ? "yes" : "no";
    }

    /** How a run ends: with a value, or with the code of a failure. */
    private record Ending(boolean isOk, long number) {}

    private static final class Failure extends RuntimeException {
        private static final long serialVersionUID = 1;
        private final long code;

        Failure(long code) {
            this.code = code;
        }
    }

    /** The runs of a task. Each goes on until it is told how to end; one that is interrupted fails with code 1. */
    private final class Job implements Callable<Long> {
        private final int task;
        private int run;

        Job(int task) {
            this.task = task;
        }

        @Override
        public Long call() {
            pool.started(this);
            try {
                Ending ending = endings.take();
                if (!ending.isOk()) {
                    throw new Failure(ending.number());
                }
                return ending.number();
            } catch (InterruptedException interrupt) {
                throw new Failure(1);
            } finally {
                pool.returned();
            }
        }
    }

    /** The executor itself. A task that its one thread takes is the future that its submission gave. */
    private final class Pool extends ScheduledThreadPoolExecutor {
        private ScheduledFuture<?> taken;
        private Job job;
        private boolean isDropped;
        private long free;

        Pool() {
            super(1);
        }

        @Override
        protected void beforeExecute(Thread worker, Runnable task) {
            taken = (ScheduledFuture<?>) task;
            job = null;
        }

        /** A job has started. Of a task that was cancelled none does. */
        void started(Job job) {
            this.job = job;
            long due = due(taken);
            expect(Math.max(due, free));
            event("start 0 task %d run %d due %d", job.task, job.run, due);
        }

        /** The job is at its end, and its task not yet. */
        void returned() {
            isDropped = taken.isCancelled();
        }

        @Override
        protected void afterExecute(Runnable task, Throwable fault) {
            if (job != null) {
                event("finish 0 task %d run %d %s", job.task, job.run++, outcome());
                free = now();
                ended.release();
            }
        }

        private String outcome() {
            if (isDropped) {
                return "dropped";
            }
            if (taken.isCancelled()) {
                return "ended";
            }
            if (!taken.isDone()) {
                return "again due " + due(taken);
            }
            try {
                return "done " + taken.get();
            } catch (ExecutionException failed) {
                return "failed " + ((Failure) failed.getCause()).code;
            } catch (InterruptedException interrupt) {
                throw new IllegalStateException(interrupt);
            }
        }
    }
}
