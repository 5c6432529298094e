import java.util.Arrays;
import java.util.Locale;
import java.util.concurrent.ConcurrentLinkedQueue;
import java.util.concurrent.ScheduledThreadPoolExecutor;
import java.util.concurrent.TimeUnit;
import java.util.concurrent.atomic.AtomicInteger;

/**
 * How many tasks a second Java's ScheduledThreadPoolExecutor runs, and how late its timers are, as
 * examples/embed/rust/src/bin/pool_speed.rs does it of the pool in Rust, with the same lines.
 */
public final class PoolSpeed {
    static final int TASKS = 1_000_000, ROUNDS = 7, TIMERS = 1_000;

    static double tasksASecond(int threads) throws InterruptedException {
        AtomicInteger ran = new AtomicInteger();
        ScheduledThreadPoolExecutor pool = new ScheduledThreadPoolExecutor(threads);
        pool.prestartAllCoreThreads();
        long start = System.nanoTime();
        for (int i = 0; i < TASKS; i++) pool.schedule(ran::incrementAndGet, 0, TimeUnit.NANOSECONDS);
        pool.shutdown();
        boolean ended = pool.awaitTermination(600, TimeUnit.SECONDS);
        long took = System.nanoTime() - start;
        if (!ended || ran.get() != TASKS) throw new AssertionError("not each task ran once");
        return TASKS * 1e9 / took;
    }

    static long[] lateness() throws InterruptedException {
        ScheduledThreadPoolExecutor pool = new ScheduledThreadPoolExecutor(2);
        pool.prestartAllCoreThreads();
        ConcurrentLinkedQueue<Long> came = new ConcurrentLinkedQueue<>();
        for (int place = 1; place <= TIMERS; place++) {
            long delay = 100_000_000L + 1_000_000_000L * place / TIMERS;
            long due = System.nanoTime() + delay;
            pool.schedule(() -> { came.add(System.nanoTime() - due); }, delay, TimeUnit.NANOSECONDS);
        }
        pool.shutdown();
        if (!pool.awaitTermination(600, TimeUnit.SECONDS) || came.size() != TIMERS) throw new AssertionError("not each timer ran");
        long[] late = came.stream().mapToLong(Long::longValue).toArray();
        Arrays.sort(late);
        return late;
    }

    public static void main(String[] args) throws InterruptedException {
        String[] words = args.length == 0 ? new String[] {"1", "2", "4"} : args;
        for (String word : words) {
            int threads = Integer.parseInt(word);
            double best = 0;
            for (int round = 0; round < ROUNDS; round++) best = Math.max(best, tasksASecond(threads));
            System.out.printf("threads %d: %.0f tasks a second%n", threads, best);
        }
        long[] late = lateness();
        System.out.printf(Locale.ROOT, "late by %.1f us in the median, %.1f us in the 99th percentile%n",
            late[TIMERS * 50 / 100] / 1e3, late[TIMERS * 99 / 100] / 1e3);
    }
}
