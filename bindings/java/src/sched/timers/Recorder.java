package sched.timers;

import java.io.IOException;
import java.io.OutputStream;
import java.io.UncheckedIOException;
import java.nio.charset.StandardCharsets;
import java.nio.file.Files;
import java.nio.file.Path;
import java.util.function.Consumer;
import java.util.function.Supplier;

/**
 * Writes down what a pool's timers were asked, as a plan, and what they answered, as a trace, line by line, in the forms of the program
 * {@code sched}. The text so far is a plan, and a trace of it, after each call. Whatever is thrown here, by a consumer or for want of
 * memory, ends the recording, and goes no further: a pool's state is never half changed by it.
 */
final class Recorder {
    /** How many calls a block of a plan may have. */
    private static final int MOST_CALLS = 256;
    private static final String[] OPS = {"schedule", "rate", "fixed"};
    private static final String[] POLICIES = {"continue", "execute", "remove"};

    private final Consumer<String> trace, plan;
    private int calls;
    /** The moment of the first call of the block, from which those of its calls are counted. */
    private long begin;
    private volatile Throwable failure;

    Recorder(Consumer<String> trace, Consumer<String> plan) {
        this.trace = trace;
        this.plan = plan;
    }

    /** A recorder into two files, which are new or emptied. Each line is written at once. */
    static Recorder into(Path trace, Path plan) throws IOException {
        FileLines lines = new FileLines(trace);
        try {
            return new Recorder(lines, new FileLines(plan));
        } catch (IOException | RuntimeException failure) {
            lines.close();
            throw failure;
        }
    }

    /** What ended the recording; null where nothing did. */
    Throwable failure() {
        return failure;
    }

    void submission(long number, int kind, long moment, long delay, long period) {
        if (failure != null) return;
        try {
            call(moment, OPS[kind], "name = \"t" + number + "\"\n" + spans(kind, delay, period));
        } catch (Throwable thrown) {
            end(thrown);
        }
    }

    private static String spans(int kind, long delay, long period) {
        if (kind == Timers.ONCE) return "delay = " + delay;
        return "first = " + delay + (kind == Timers.RATE ? "\nperiod = " : "\ndelay = ") + period;
    }

    void rule(long moment, int which, boolean value) {
        if (failure != null) return;
        try {
            if (which == Timers.SHUTDOWN) call(moment, "shutdown", "");
            else if (which == Timers.SHUTDOWN_NOW) call(moment, "shutdown_now", "");
            else call(moment, "policy", "which = \"" + POLICIES[which] + "\"\nvalue = " + value);
        } catch (Throwable thrown) {
            end(thrown);
        }
    }

    void question(long moment) {
        if (failure != null) return;
        try {
            call(moment, "ask", "");
        } catch (Throwable thrown) {
            end(thrown);
        }
    }

    private void call(long moment, String op, String keys) {
        String front = calls == 0 ? "version = 2\n" : "";
        if (calls++ % MOST_CALLS == 0) {
            begin = moment;
            front += "\n[[block]]\nat = " + begin + "\n";
        }
        (front + "\n[[block.call]]\nat = " + (moment - begin) + "\nop = \"" + op + "\"\n" + keys).lines().forEach(plan);
    }

    /** The lines that a call was answered, which are asked for here. */
    void trace(Supplier<String> lines) {
        if (failure != null) return;
        try {
            lines.get().lines().forEach(trace);
        } catch (Throwable thrown) {
            end(thrown);
        }
    }

    private void end(Throwable thrown) {
        failure = thrown;
        close();
    }

    /** The pool has ended, or the recording: files are closed. */
    void close() {
        if (trace instanceof FileLines) ((FileLines) trace).close();
        if (plan instanceof FileLines) ((FileLines) plan).close();
    }

    /** Lines into a file, each of which is there once it was written. */
    private static final class FileLines implements Consumer<String> {
        private final OutputStream file;

        FileLines(Path path) throws IOException {
            file = Files.newOutputStream(path);
        }

        @Override
        public void accept(String line) {
            try {
                file.write((line + "\n").getBytes(StandardCharsets.US_ASCII));
            } catch (IOException failure) {
                throw new UncheckedIOException(failure);
            }
        }

        void close() {
            try {
                file.close();
            } catch (IOException ignored) {
                // All lines are written: there is nothing left to lose.
            }
        }
    }
}
