package sched.tests;

import static java.util.concurrent.TimeUnit.HOURS;
import static java.util.concurrent.TimeUnit.NANOSECONDS;

import java.util.ArrayList;
import java.util.Collections;
import java.util.List;
import java.util.Random;
import java.util.concurrent.Delayed;
import java.util.concurrent.RejectedExecutionException;
import java.util.concurrent.RunnableScheduledFuture;
import java.util.concurrent.ScheduledFuture;
import java.util.concurrent.ScheduledThreadPoolExecutor;
import java.util.concurrent.TimeUnit;
import java.util.concurrent.atomic.AtomicInteger;

/**
 * Random programs over both classes, which differ only as the page says. A program has one worker. What it submits is due at once or in
 * hours, and after each call it waits until all that is due has run: so what it sees hangs on its seed alone.
 */
final class RandomPrograms {
    private static final int MOST_CALLS = 24;

    private final Random random;
    private final ScheduledThreadPoolExecutor pool;
    private final List<Thread> threads = Collections.synchronizedList(new ArrayList<>());
    private final List<ScheduledFuture<?>> tasks = Collections.synchronizedList(new ArrayList<>());
    private final AtomicInteger runs = new AtomicInteger();
    private final StringBuilder said = new StringBuilder();
    /** What shutdownNow listed, in its order. */
    private final StringBuilder order = new StringBuilder();

    private RandomPrograms(long seed, boolean ours) {
        random = new Random(seed);
        pool = Scenes.pool(ours, random.nextInt(8) == 0 ? 0 : 1);
        pool.setThreadFactory(job -> {
            Thread thread = new Thread(job);
            thread.setUncaughtExceptionHandler((dead, thrown) -> {});
            threads.add(thread);
            return thread;
        });
    }

    /** What the program sees; what it lists is beside it. */
    private String[] played() throws Exception {
        try {
            for (int n = 1 + random.nextInt(MOST_CALLS); n > 0; n--) {
                call(random.nextInt(22));
                settle();
                look();
            }
        } finally {
            pool.shutdownNow();
        }
        if (!Scenes.ends(pool)) said.append(" does not end");
        return new String[] {said.toString(), order.toString()};
    }

    private void call(int which) {
        said.append('\n').append(which).append(' ');
        try {
            submitOrElse(which);
        } catch (RejectedExecutionException rejected) {
            said.append("rejected");
        }
    }

    private void submitOrElse(int which) {
        switch (which) {
            case 0: case 1: add(pool.schedule(job(), delay(), NANOSECONDS)); break;
            case 2: case 3: add(pool.schedule(job(), hours(), HOURS)); break;
            case 4: add(pool.scheduleAtFixedRate(job(), delay(), hours(), HOURS)); break;
            case 5: add(pool.scheduleWithFixedDelay(job(), hours(), hours(), HOURS)); break;
            case 6: add(pool.scheduleWithFixedDelay(job(), delay(), hours(), HOURS)); break;
            case 7: pool.execute(job()); break;
            default: change(which);
        }
    }

    private void change(int which) {
        switch (which) {
            case 8: case 9: case 10: case 11: if (!tasks.isEmpty()) said.append(any().cancel(random.nextBoolean())); break;
            case 12: if (!tasks.isEmpty()) said.append(pool.remove((Runnable) any())); break;
            case 13: pool.purge(); break;
            case 14: case 15: pool.setRemoveOnCancelPolicy(random.nextBoolean()); break;
            case 16: pool.setExecuteExistingDelayedTasksAfterShutdownPolicy(random.nextBoolean()); break;
            case 17: pool.setContinueExistingPeriodicTasksAfterShutdownPolicy(random.nextBoolean()); break;
            case 18: removeByQueue(); break;
            case 19: runByHand(); break;
            case 20: if (random.nextInt(3) == 0) pool.shutdown(); break;
            default: if (random.nextInt(6) == 0) list(pool.shutdownNow());
        }
    }

    /** A periodic task would come into Java's queue once more: a difference that has a test of its own. */
    private void runByHand() {
        if (tasks.isEmpty()) return;
        ScheduledFuture<?> task = any();
        if (!((RunnableScheduledFuture<?>) task).isPeriodic()) ((Runnable) task).run();
    }

    /** Java's queue tells no worker of it, so that a pool that is shut may wait on: a difference that the page names. */
    private void removeByQueue() {
        if (!tasks.isEmpty() && !pool.isShutdown()) said.append(pool.getQueue().remove(any()));
    }

    private void list(List<Runnable> left) {
        List<Integer> found = new ArrayList<>();
        for (Runnable each : left) found.add(tasks.indexOf(each));
        order.append(found);
        Collections.sort(found);
        said.append(found);
    }

    private void add(ScheduledFuture<?> task) {
        tasks.add(task);
    }

    private ScheduledFuture<?> any() {
        return tasks.get(random.nextInt(tasks.size()));
    }

    private long delay() {
        return random.nextInt(3) - 1;
    }

    private int hours() {
        return 1 + random.nextInt(5);
    }

    /** What a job does: nothing else, fail, cancel, submit, set a policy, or shut its pool down. */
    private Runnable job() {
        int what = random.nextInt(20), which = random.nextInt(8);
        ScheduledFuture<?> other = tasks.isEmpty() ? null : any();
        return () -> {
            runs.incrementAndGet();
            if (what == 0) throw new IllegalStateException("a job");
            if (what == 1) throw new LinkageError("a job");
            if (what == 2 && other != null) other.cancel(false);
            if (what == 3) submitWithin();
            if (what == 4) pool.setRemoveOnCancelPolicy(true);
            if (what == 5 && which == 0) pool.shutdown();
        };
    }

    private void submitWithin() {
        try {
            pool.schedule(() -> { runs.incrementAndGet(); }, 0, NANOSECONDS);
        } catch (RejectedExecutionException rejected) {
            runs.addAndGet(1000);
        }
    }

    /** Waits until all that is due has run, and each worker waits, or has gone. */
    private void settle() throws InterruptedException {
        long end = System.nanoTime() + TimeUnit.SECONDS.toNanos(30);
        for (int still = 0; still < 2; ) {
            still = isStill() ? still + 1 : 0;
            if (still == 0) Thread.yield();
            if (System.nanoTime() > end) throw new IllegalStateException("the pool does not settle: " + pool + said);
        }
    }

    private boolean isStill() {
        for (Runnable each : pool.getQueue()) if (((Delayed) each).getDelay(NANOSECONDS) <= 0) return false;
        for (Thread thread : List.copyOf(threads)) {
            Thread.State state = thread.getState();
            if (state != Thread.State.WAITING && state != Thread.State.TIMED_WAITING && state != Thread.State.TERMINATED) return false;
        }
        if (pool.getActiveCount() != 0) return false;
        return !pool.isShutdown() || pool.isTerminated() || !pool.getQueue().isEmpty();
    }

    private void look() {
        said.append(" runs ").append(runs).append(" queue ").append(pool.getQueue().size()).append(" of ").append(pool.getTaskCount()).append(" done ").append(pool.getCompletedTaskCount())
            .append(pool.isShutdown() ? " shut" : "").append(pool.isTerminated() ? " terminated" : "").append(' ');
        for (ScheduledFuture<?> task : tasks)
            said.append(task.isCancelled() ? 'c' : task.isDone() ? 'd' : '-').append(((RunnableScheduledFuture<?>) task).isPeriodic() ? 'p' : ' ')
                .append(pool.getQueue().contains(task) ? 'q' : ' ').append(Math.max(-1, task.getDelay(TimeUnit.MINUTES) / 59));
    }

    private static String[] played(long seed, boolean ours) {
        try {
            return new RandomPrograms(seed, ours).played();
        } catch (Exception | AssertionError thrown) {
            return new String[] {thrown.toString(), ""};
        }
    }

    static void run(int programs) {
        int same = 0, ordered = 0, worse = 0;
        for (long seed = 0; seed < programs; seed++) {
            String[] ours = played(seed, true), theirs = played(seed, false);
            if (!ours[0].equals(theirs[0])) {
                if (worse++ < 5) Runner.say("program " + seed + ": ours " + ours[0] + "\nJava's " + theirs[0]);
            } else if (!ours[1].equals(theirs[1])) {
                ordered++;
            } else {
                same++;
            }
        }
        Runner.told("random programs", worse == 0, worse + " differ");
        Runner.say("random programs: " + same + " alike, " + ordered + " with another order of shutdownNow, " + worse + " otherwise");
    }
}
