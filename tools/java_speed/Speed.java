import java.io.IOException;
import java.nio.file.Files;
import java.nio.file.Path;
import java.util.Arrays;
import java.util.Locale;
import java.util.Random;
import java.util.concurrent.CountDownLatch;
import java.util.concurrent.ScheduledFuture;
import java.util.concurrent.ScheduledThreadPoolExecutor;
import java.util.concurrent.TimeUnit;
import java.util.concurrent.atomic.AtomicLong;
import sched.timers.TimersThreadPoolExecutor;

/** Times of the two classes, in turns in one JVM. The words: what to measure, and its numbers; `measure` beside it says which. */
public final class Speed {
    static final long HOUR = 3_600_000_000_000L;
    static final Runnable NOTHING = () -> {};

    /** One turn, over a pool of one of the classes. The answer is nanoseconds for a round. */
    interface Turn {
        double over(ScheduledThreadPoolExecutor pool) throws Exception;
    }

    static ScheduledThreadPoolExecutor pool(boolean ours) {
        ScheduledThreadPoolExecutor pool = ours ? new TimersThreadPoolExecutor(1) : new ScheduledThreadPoolExecutor(1);
        pool.setRemoveOnCancelPolicy(true);
        return pool;
    }

    /** A part of the work, which one of the threads that submit does. */
    interface Part {
        void run(int part) throws Exception;
    }

    /** How long it takes until so many threads, which begin together, have done their parts. */
    static long inThreads(int n, Part part) throws Exception {
        CountDownLatch go = new CountDownLatch(1);
        Thread[] threads = new Thread[n];
        for (int i = 0; i < n; i++) {
            int number = i;
            threads[i] = new Thread(() -> {
                try {
                    go.await();
                    part.run(number);
                } catch (Exception failure) {
                    throw new IllegalStateException(failure);
                }
            });
            threads[i].start();
        }
        long start = System.nanoTime();
        go.countDown();
        for (Thread thread : threads) thread.join();
        return System.nanoTime() - start;
    }

    /** Each round cancels the oldest task of its thread, and submits another one. */
    static Turn cancels(int alive, int submitters, int rounds) {
        return pool -> {
            ScheduledFuture<?>[][] rings = new ScheduledFuture<?>[submitters][alive / submitters];
            Random first = new Random(1);
            for (ScheduledFuture<?>[] ring : rings) for (int i = 0; i < ring.length; i++) ring[i] = later(pool, first);
            int each = rounds / submitters;
            long took = inThreads(submitters, part -> {
                ScheduledFuture<?>[] ring = rings[part];
                Random random = new Random(part);
                for (int i = 0, at = 0; i < each; i++, at = at + 1 == ring.length ? 0 : at + 1) {
                    if (!ring[at].cancel(false)) throw new AssertionError("a task was not cancelled");
                    ring[at] = later(pool, random);
                }
            });
            return took / ((double) each * submitters);
        };
    }

    static ScheduledFuture<?> later(ScheduledThreadPoolExecutor pool, Random random) {
        return pool.schedule(NOTHING, HOUR + random.nextInt(), TimeUnit.NANOSECONDS);
    }

    /** Each round submits a task that is due at once; the turn ends when all have run. */
    static Turn runs(int alive, int submitters, int rounds) {
        return pool -> {
            Random random = new Random(1);
            for (int i = 0; i < alive; i++) later(pool, random);
            int each = rounds / submitters;
            AtomicLong ran = new AtomicLong();
            CountDownLatch all = new CountDownLatch(1);
            long wanted = (long) each * submitters;
            Runnable job = () -> {
                if (ran.incrementAndGet() == wanted) all.countDown();
            };
            long start = System.nanoTime();
            inThreads(submitters, part -> {
                for (int i = 0; i < each; i++) pool.schedule(job, 0, TimeUnit.NANOSECONDS);
            });
            all.await();
            return (System.nanoTime() - start) / (double) wanted;
        };
    }

    static double once(boolean ours, Turn turn) throws Exception {
        ScheduledThreadPoolExecutor pool = pool(ours);
        try {
            return turn.over(pool);
        } finally {
            pool.shutdownNow();
            pool.awaitTermination(1, TimeUnit.MINUTES);
        }
    }

    static void compare(String work, int alive, int submitters, int rounds, int turns) throws Exception {
        Turn turn = work.equals("cancel") ? cancels(alive, submitters, rounds) : runs(alive, submitters, rounds);
        double[][] times = new double[2][turns];
        for (int i = -1; i < turns; i++)
            for (int who = 0; who < 2; who++) {
                double time = once(who == 0, turn);
                if (i >= 0) times[who][i] = time;
            }
        for (double[] sorted : times) Arrays.sort(sorted);
        double ours = times[0][turns / 2], theirs = times[1][turns / 2];
        System.out.printf(Locale.ROOT, "schedule+%-6s %,9d alive, %d submit: ours %6.0f (%.0f) ns, Java's %6.0f (%.0f) ns, %.2f%n", work, alive, submitters,
            ours, times[0][0], theirs, times[1][0], ours / theirs);
    }

    // ---- memory

    static long resident() throws IOException {
        for (String line : Files.readAllLines(Path.of("/proc/self/status")))
            if (line.startsWith("VmRSS:")) return 1024 * Long.parseLong(line.replaceAll("\\D", ""));
        throw new IOException("/proc/self/status has no VmRSS");
    }

    static long heap() throws InterruptedException {
        for (int i = 0; i < 4; i++) {
            System.gc();
            Thread.sleep(20);
        }
        return Runtime.getRuntime().totalMemory() - Runtime.getRuntime().freeMemory();
    }

    /** The heap is to be touched whole at the start (AlwaysPreTouch), so that what becomes resident is outside it. */
    static void memory(boolean ours, int tasks) throws Exception {
        ScheduledThreadPoolExecutor pool = pool(ours);
        pool.schedule(NOTHING, HOUR, TimeUnit.NANOSECONDS);
        Random random = new Random(1);
        long inside = heap(), outside = resident();
        for (int i = 0; i < tasks; i++) later(pool, random);
        long more = heap() - inside, beyond = resident() - outside;
        System.out.printf(Locale.ROOT, "%s: %.1f bytes a task in the heap, %.1f outside, of %,d tasks%n", ours ? "ours" : "Java's", more / (double) tasks, beyond / (double) tasks, tasks);
        pool.shutdownNow();
    }

    // ---- lateness

    /** How late timers begin, one each millisecond: the middle, the 99th of a hundred, and the last, in microseconds. */
    static String lateness(boolean ours, int timers) throws Exception {
        ScheduledThreadPoolExecutor pool = pool(ours);
        long[] late = new long[timers];
        CountDownLatch all = new CountDownLatch(timers);
        long first = System.nanoTime() + 200_000_000L;
        for (int i = 0; i < timers; i++) {
            int number = i;
            long due = first + i * 1_000_000L;
            pool.schedule(() -> {
                late[number] = System.nanoTime() - due;
                all.countDown();
            }, due - System.nanoTime(), TimeUnit.NANOSECONDS);
        }
        all.await();
        pool.shutdown();
        Arrays.sort(late);
        return String.format(Locale.ROOT, "%.1f %.1f %.1f", late[timers / 2] / 1e3, late[timers * 99 / 100] / 1e3, late[timers - 1] / 1e3);
    }

    static void latenesses(int timers, int turns) throws Exception {
        for (int i = 0; i < turns; i++)
            System.out.println("lateness of " + timers + " timers, microseconds at the middle, the 99th of 100, the last: ours " + lateness(true, timers) + ", Java's " + lateness(false, timers));
    }

    public static void main(String[] words) throws Exception {
        int[] numbers = Arrays.stream(words).skip(1).mapToInt(Integer::parseInt).toArray();
        switch (words[0]) {
            case "cancel":
            case "run":
                compare(words[0], numbers[0], numbers[1], numbers[2], numbers[3]);
                break;
            case "memory":
                memory(numbers[0] == 1, numbers[1]);
                break;
            case "lateness":
                latenesses(numbers[0], numbers[1]);
                break;
            default:
                throw new IllegalArgumentException(words[0]);
        }
    }
}
