import java.util.Locale;
import java.util.concurrent.CountDownLatch;
import java.util.concurrent.ScheduledFuture;
import java.util.concurrent.ScheduledThreadPoolExecutor;
import java.util.concurrent.TimeUnit;

/**
 * The rounds of timers.c over Java's ScheduledThreadPoolExecutor with one thread: Timers run|cancel TASKS ROUNDS. No moment can be
 * handed to it, so in `run` its tasks are due sooner than it gets to them, up to TASKS * 20 nanoseconds after they are submitted:
 * it never waits. Each task submits the next one in its place. As many rounds come before those that are timed, so that the code
 * is compiled.
 */
public final class Timers {
    static long state = 1;

    static long mixed() {
        state = state * 6364136223846793005L + 1442695040888963407L;
        return state >>> 33;
    }

    /** A task that submits itself again, until all rounds are done. */
    static final class Again implements Runnable {
        static ScheduledThreadPoolExecutor pool;
        static CountDownLatch done = new CountDownLatch(1);
        static long most, rounds, made, start, end, sum;
        final long data;

        Again(long data) {
            this.data = data;
        }

        public void run() {
            if (made == rounds) start = System.nanoTime();
            if (made++ == 2 * rounds) {
                end = System.nanoTime();
                done.countDown();
            }
            sum = sum * 31 + data;
            if (made <= 2 * rounds) pool.schedule(this, 1 + mixed() % most, TimeUnit.NANOSECONDS);
        }
    }

    static double run(ScheduledThreadPoolExecutor pool, int tasks, long rounds) throws InterruptedException {
        CountDownLatch filled = new CountDownLatch(1);
        Again.pool = pool;
        Again.most = 20L * tasks;
        Again.rounds = rounds;
        pool.execute(() -> {
            try {
                filled.await();
            } catch (InterruptedException interrupted) {
                Thread.currentThread().interrupt();
            }
        });
        for (int i = 0; i < tasks; i++) pool.schedule(new Again(i), 1 + mixed() % Again.most, TimeUnit.NANOSECONDS);
        filled.countDown();
        Again.done.await();
        return (Again.end - Again.start) / (double) rounds;
    }

    static double cancel(ScheduledThreadPoolExecutor pool, int tasks, long rounds) {
        ScheduledFuture<?>[] waiting = new ScheduledFuture<?>[tasks];
        Runnable nothing = () -> {};
        long hour = 3_600_000_000_000L, start = 0;
        int first = 0;
        for (int i = 0; i < tasks; i++) waiting[i] = pool.schedule(nothing, hour + mixed(), TimeUnit.NANOSECONDS);
        for (long round = 0; round < 2 * rounds; round++) {
            if (round == rounds) start = System.nanoTime();
            if (!waiting[first].cancel(false)) throw new AssertionError("a task was over");
            waiting[first] = pool.schedule(nothing, hour + mixed(), TimeUnit.NANOSECONDS);
            first = first + 1 == tasks ? 0 : first + 1;
        }
        return (System.nanoTime() - start) / (double) rounds;
    }

    public static void main(String[] words) throws InterruptedException {
        int tasks = Integer.parseInt(words[1]);
        long rounds = Long.parseLong(words[2]);
        ScheduledThreadPoolExecutor pool = new ScheduledThreadPoolExecutor(1);
        pool.setRemoveOnCancelPolicy(true);
        double took = words[0].equals("run") ? run(pool, tasks, rounds) : cancel(pool, tasks, rounds);
        System.out.printf(Locale.ROOT, "%.1f ns, sum %d%n", took, Again.sum);
        pool.shutdownNow();
    }
}
