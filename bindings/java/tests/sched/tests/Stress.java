package sched.tests;

import java.util.ArrayList;
import java.util.List;
import java.util.Queue;
import java.util.Random;
import java.util.concurrent.ConcurrentLinkedQueue;
import java.util.concurrent.Future;
import java.util.concurrent.RejectedExecutionException;
import java.util.concurrent.RunnableScheduledFuture;
import java.util.concurrent.ScheduledFuture;
import java.util.concurrent.TimeUnit;
import java.util.concurrent.atomic.AtomicLong;
import java.util.function.Consumer;
import sched.timers.TimersThreadPoolExecutor;

/**
 * Operations from several threads, counted, over pools that are shut down in both ways: each task that was accepted runs once, is
 * cancelled, or is left by the shutdown; and memory is as it was, in the heap and outside.
 */
final class Stress {
    /** How many operations a pool lives for, and how many tasks a thread keeps at hand. */
    private static final int OPERATIONS_OF_A_POOL = 200_000;
    private static final int AT_HAND = 256;

    private final AtomicLong odd = new AtomicLong();
    private final Queue<Once> all = new ConcurrentLinkedQueue<>();
    private final List<Runnable> left = new ArrayList<>();
    private final TimersThreadPoolExecutor pool;
    private final Random random;

    private Stress(long seed, Consumer<TimersThreadPoolExecutor> prepare) {
        random = new Random(seed);
        pool = new TimersThreadPoolExecutor(1 + random.nextInt(4));
        prepare.accept(pool);
        pool.setRemoveOnCancelPolicy(random.nextBoolean());
        pool.setExecuteExistingDelayedTasksAfterShutdownPolicy(random.nextBoolean());
        pool.setContinueExistingPeriodicTasksAfterShutdownPolicy(random.nextBoolean());
    }

    /** A job that is to run once, which knows whether it did. */
    private final class Once implements Runnable {
        private boolean hasRun;
        private ScheduledFuture<?> future;

        @Override
        public void run() {
            if (hasRun) odd.incrementAndGet();
            hasRun = true;
        }
    }

    private void operate(int operations, long seed) {
        Random random = new Random(seed);
        ScheduledFuture<?>[] tasks = new ScheduledFuture<?>[AT_HAND];
        boolean[] periodic = new boolean[AT_HAND];
        for (int i = 0; i < operations; i++) {
            int at = random.nextInt(AT_HAND), what = random.nextInt(100);
            try {
                if (what < 40 || tasks[at] != null && what < 50) cancel(tasks, periodic, at, what % 2 == 0);
                else if (what < 98) submit(tasks, periodic, at, what, random);
                else settings(random);
            } catch (RejectedExecutionException late) {
                tasks[at] = null; // the pool was shut meanwhile
            }
        }
        for (int at = 0; at < AT_HAND; at++) if (periodic[at]) cancel(tasks, periodic, at, false);
    }

    private void cancel(ScheduledFuture<?>[] tasks, boolean[] periodic, int at, boolean interrupts) {
        if (tasks[at] == null) return;
        boolean yes = tasks[at].cancel(interrupts);
        if (yes && !tasks[at].isCancelled() || tasks[at].cancel(false)) odd.incrementAndGet();
        tasks[at] = null;
        periodic[at] = false;
    }

    private void submit(ScheduledFuture<?>[] tasks, boolean[] periodic, int at, int what, Random random) {
        cancel(tasks, periodic, at, false);
        long delay = what < 60 ? 0 : what < 90 ? random.nextInt(200_000) : 1_000_000_000L + random.nextInt();
        if (what < 96) {
            Once once = new Once();
            once.future = tasks[at] = pool.schedule(once, delay, TimeUnit.NANOSECONDS);
            all.add(once);
        } else {
            tasks[at] = what == 96 ? pool.scheduleAtFixedRate(() -> {}, delay, 50_000, TimeUnit.NANOSECONDS) : pool.scheduleWithFixedDelay(() -> {}, delay, 50_000, TimeUnit.NANOSECONDS);
            periodic[at] = true;
        }
    }

    private void settings(Random random) {
        int what = random.nextInt(8);
        if (what == 0) pool.setRemoveOnCancelPolicy(random.nextBoolean());
        else if (what == 1) pool.purge();
        else if (what == 2) pool.setCorePoolSize(random.nextInt(5));
        else if (what == 3) pool.setExecuteExistingDelayedTasksAfterShutdownPolicy(random.nextBoolean());
        else if (what == 4) pool.setContinueExistingPeriodicTasksAfterShutdownPolicy(random.nextBoolean());
        else if (what == 5) pool.getQueue().size();
        else if (what == 6) pool.getQueue().peek();
        else pool.prestartCoreThread();
    }

    /** Runs one pool to its end. The answer is what is wrong, or null. */
    private String lives(int threads, int operations, long seed) throws InterruptedException {
        Thread[] submitters = new Thread[threads];
        for (int i = 0; i < threads; i++) {
            long its = seed * threads + i;
            submitters[i] = new Thread(() -> operate(operations / threads, its));
            submitters[i].start();
        }
        if (random.nextInt(4) == 0) end();
        for (Thread thread : submitters) thread.join();
        end();
        if (!pool.awaitTermination(60, TimeUnit.SECONDS)) return "the pool does not end: " + pool;
        return wrong();
    }

    /** Shuts the pool down, in one of the ways or in both. */
    private void end() {
        if (random.nextBoolean()) {
            pool.shutdown();
            pool.setContinueExistingPeriodicTasksAfterShutdownPolicy(false);
            pool.setExecuteExistingDelayedTasksAfterShutdownPolicy(false);
        }
        if (random.nextBoolean() || pool.isShutdown()) left.addAll(pool.shutdownNow());
        else pool.shutdown();
        if (!pool.isTerminated()) left.addAll(pool.shutdownNow());
    }

    /** Of the tasks that were accepted, each has run, was cancelled, or is one of those that were left. */
    private String wrong() {
        long open = 0, drained = 0, undone = 0;
        for (Once once : all) {
            if (!once.hasRun && !once.future.isCancelled()) open++;
            if (once.hasRun && !once.future.isDone()) undone++;
        }
        for (Runnable task : left) if (!((Future<?>) task).isCancelled() && !((RunnableScheduledFuture<?>) task).isPeriodic()) drained++;
        if (odd.get() == 0 && undone == 0 && open == drained) return null;
        return odd + " ran twice, or are cancelled otherwise than told; " + undone + " ran and are not done; " + open + " did not run, and " + drained + " were left";
    }

    /** One pool, recorded as its caller prepares it. The answer is what is wrong, or null. */
    static String shortOne(int operations, Consumer<TimersThreadPoolExecutor> prepare) throws InterruptedException {
        return new Stress(7, prepare).lives(2, operations, 7);
    }

    static void run(long operations, int threads) throws Exception {
        long pools = Math.max(4, operations / OPERATIONS_OF_A_POOL), heap = 0, resident = 0, blocks = 0;
        for (long i = 0; i < pools; i++) {
            String wrong = new Stress(i, pool -> {}).lives(threads, OPERATIONS_OF_A_POOL, i);
            if (wrong != null) Runner.told("stress, pool " + i, false, wrong);
            if (i == pools / 4) {
                heap = Memory.heap();
                resident = Memory.resident();
                blocks = Memory.blocks();
            }
        }
        long heapAtEnd = Memory.heap(), residentAtEnd = Memory.resident();
        Runner.say(String.format("stress: %,d operations from %d threads over %d pools; heap %,d then %,d bytes, resident %,d then %,d MiB, blocks of the library %d then %d", pools * OPERATIONS_OF_A_POOL,
            threads, pools, heap, heapAtEnd, resident >> 20, residentAtEnd >> 20, blocks, Memory.blocks()));
        Runner.told("stress, the heap is as it was", heapAtEnd < heap + (2 << 20), heap + " bytes, then " + heapAtEnd);
        Runner.told("stress, memory outside the heap is as it was", residentAtEnd < resident + (64 << 20), resident + " bytes, then " + residentAtEnd);
        Runner.told("stress, the library gave all back", Memory.blocks() == 0, Memory.blocks() + " blocks");
    }
}
