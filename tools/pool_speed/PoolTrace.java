import com.sun.management.OperatingSystemMXBean;
import java.io.FileOutputStream;
import java.io.IOException;
import java.io.OutputStream;
import java.lang.management.ManagementFactory;
import java.util.Arrays;
import java.util.concurrent.CountDownLatch;
import java.util.concurrent.ScheduledFuture;
import java.util.concurrent.ScheduledThreadPoolExecutor;
import java.util.concurrent.TimeUnit;
import java.util.concurrent.atomic.AtomicInteger;

/**
 * Times Java's ScheduledThreadPoolExecutor over tasks that do nothing, with a trace of what happens or without one.
 *
 * <p>{@code java PoolTrace WORK TRACE THREADS ROUNDS}: WORK is {@code once}, 65,536 tasks with the delay 0, or {@code rate}, one task
 * with a period of a nanosecond that runs 65,536 times. TRACE is {@code traced}, then each submission, the clock, and each start and
 * finish is kept under one lock with its moment, its run and its due moment, and the lines are written at the end; or {@code plain}.
 * Each round prints the milliseconds by the clock and those of the processor, from the first submission until all has run and is
 * written. As many rounds again come before, and print nothing.
 */
final class PoolTrace {
    private static final int RUNS = 65_536;

    private PoolTrace() {}

    /** What a line of the trace says. */
    private enum What { SUBMIT, CLOCK, START, FINISH }

    /** The lines of a trace, in the order of the lock of this object. */
    private static final class Trace {
        private static final int FIELDS = 4;
        private final long begin = System.nanoTime();
        private long[] lines = new long[FIELDS * 64];
        private int used;

        /** Keeps a line: what happened, and the worker, the task, the run and the due moment, as far as it has them. */
        synchronized void keep(What what, int worker, int task, long run, long due) {
            if (used == lines.length) {
                lines = Arrays.copyOf(lines, 2 * used);
            }
            lines[used] = System.nanoTime() - begin;
            lines[used + 1] = what.ordinal() | (long) worker << 8 | (long) task << 16;
            lines[used + 2] = run;
            lines[used + 3] = due;
            used += FIELDS;
        }

        /** Writes all lines. */
        synchronized void write(OutputStream out) throws IOException {
            Page page = new Page(out);
            What[] whats = What.values();
            for (int at = 0; at < used; at += FIELDS) {
                long named = lines[at + 1];
                page.line(lines[at], whats[(int) (named & 255)], named >> 8 & 255, named >> 16, lines[at + 2], lines[at + 3]);
            }
            page.flush();
        }
    }

    /** Lines on their way to a stream. */
    private static final class Page {
        private final OutputStream out;
        private final byte[] bytes = new byte[65_536];
        private final byte[] digits = new byte[20];
        private int used;

        Page(OutputStream out) {
            this.out = out;
        }

        void line(long moment, What what, long worker, long task, long run, long due) throws IOException {
            if (bytes.length - used < 200) {
                flush();
            }
            number(moment);
            switch (what) {
                case SUBMIT -> word(" submit ").number(task).word(" schedule due ").number(due);
                case CLOCK -> word(" clock");
                case START -> word(" start ").number(worker).word(" task ").number(task).word(" run ").number(run).word(" due ").number(due);
                case FINISH -> word(" finish ").number(worker).word(" task ").number(task).word(" run ").number(run).word(" done ").number(run);
            }
            bytes[used++] = '\n';
        }

        private Page word(String word) {
            for (int at = 0; at < word.length(); at++) {
                bytes[used++] = (byte) word.charAt(at);
            }
            return this;
        }

        private Page number(long number) {
            int count = 0;
            do {
                digits[count++] = (byte) ('0' + number % 10);
                number /= 10;
            } while (number != 0);
            while (count > 0) {
                bytes[used++] = digits[--count];
            }
            return this;
        }

        void flush() throws IOException {
            out.write(bytes, 0, used);
            used = 0;
        }
    }

    /** A thread of the pool, with its number. */
    private static final class Worker extends Thread {
        private final int number;

        Worker(int number, Runnable work) {
            super(work);
            this.number = number;
            setDaemon(true);
        }
    }

    /** A task that does nothing but to tell the trace, where there is one. */
    private static final class Job implements Runnable {
        private final Trace trace;
        private final CountDownLatch left;
        private final int task;
        private final long period;
        private long run;
        private long due;

        Job(Trace trace, CountDownLatch left, int task, long due, long period) {
            this.trace = trace;
            this.left = left;
            this.task = task;
            this.due = due;
            this.period = period;
        }

        @Override
        public void run() {
            if (trace != null) {
                int worker = ((Worker) Thread.currentThread()).number;
                trace.keep(What.START, worker, task, run, due);
                trace.keep(What.FINISH, worker, task, run, due);
            }
            run++;
            due += period;
            left.countDown();
        }
    }

    private static Job submitted(Trace trace, CountDownLatch left, int task, long due, long period) {
        if (trace != null) {
            trace.keep(What.SUBMIT, 0, task, 0, due);
        }
        return new Job(trace, left, task, due, period);
    }

    /** Does a work once, and writes its trace, where there is one. */
    private static void work(boolean isOnce, boolean isTraced, ScheduledThreadPoolExecutor pool) throws Exception {
        Trace trace = isTraced ? new Trace() : null;
        CountDownLatch left = new CountDownLatch(RUNS);
        if (trace != null) {
            trace.keep(What.CLOCK, 0, 0, 0, 0);
        }
        if (isOnce) {
            for (int task = 0; task < RUNS; task++) {
                pool.schedule(submitted(trace, left, task, 0, 0), 0, TimeUnit.NANOSECONDS);
            }
            left.await();
        } else {
            ScheduledFuture<?> rate = pool.scheduleAtFixedRate(submitted(trace, left, 0, 1, 1), 1, 1, TimeUnit.NANOSECONDS);
            left.await();
            rate.cancel(false);
        }
        if (trace != null) {
            try (OutputStream out = new FileOutputStream("/dev/null")) {
                trace.write(out);
            }
        }
    }

    public static void main(String[] words) throws Exception {
        boolean isOnce = words[0].equals("once");
        boolean isTraced = words[1].equals("traced");
        int threads = Integer.parseInt(words[2]);
        int rounds = Integer.parseInt(words[3]);
        OperatingSystemMXBean system = (OperatingSystemMXBean) ManagementFactory.getOperatingSystemMXBean();
        for (int round = -rounds; round < rounds; round++) {
            AtomicInteger numbers = new AtomicInteger();
            ScheduledThreadPoolExecutor pool = new ScheduledThreadPoolExecutor(threads, work -> new Worker(numbers.getAndIncrement(), work));
            pool.prestartAllCoreThreads();
            long clock = System.nanoTime();
            long processor = system.getProcessCpuTime();
            work(isOnce, isTraced, pool);
            long wall = System.nanoTime() - clock;
            long used = system.getProcessCpuTime() - processor;
            pool.shutdownNow();
            if (round >= 0) {
                System.out.printf("%.2f %.2f%n", wall / 1e6, used / 1e6);
            }
        }
    }
}
