package sched.timers;

import java.lang.ref.Cleaner;
import java.nio.ByteBuffer;
import java.nio.ByteOrder;
import java.nio.LongBuffer;

/**
 * The timers of one pool: those of the library, behind numbers. Whoever calls holds the lock of the pool.
 *
 * <p><b>Notes.</b> A submission and a cancel are written down in the room, and the timers are told of all notes, in their order, before
 * anything else that they are asked, and once there are {@link #MOST_NOTES}. That changes no answer: the moment of a submission is part of
 * it, a cancel is made at the greatest moment so far, and no moment passes but by a call that tells the notes first. What may be refused is
 * looked at before: memory by {@link #reserve}, the end of submissions by the pool.
 *
 * <p><b>Moments</b> are nanoseconds since the pool was made, from 0 to 2<sup>62</sup>, which is 146 years.
 *
 * <p><b>Memory.</b> The timers are freed by {@link #close}, or once this object is unreachable. It is the receiver of each call that reads
 * them, so that none runs then.
 */
class Timers {
    /** How many workers the library takes: the one place here that has the number. */
    static final int MOST_WORKERS = 255;
    /** How many workers a trace may have. */
    static final int MOST_TRACED = 64;
    /** The longest delay, and the longest period, in nanoseconds. */
    static final long LONGEST = 1L << 62;
    /** The moment of what never comes. */
    static final long NEVER = Long.MAX_VALUE;

    /** How a task is timed: once, at a fixed rate, with a fixed delay. */
    static final int ONCE = 0, RATE = 1, FIXED = 2;
    /** How a run ended: there was none; with a value; without one. */
    static final int NONE = 0, VALUE = 1, FAILURE = 2;
    /** What {@link #rule} does: the policies of the library, and the shutdowns. */
    static final int CONTINUE = 0, EXECUTE = 1, REMOVE = 2, SHUTDOWN = 3, SHUTDOWN_NOW = 4;
    /** What {@link #outcome} tells of a periodic task that waits for its next run, and of one that the policies end. */
    static final int AGAIN = 2, ENDED = 4;
    /** What {@link #cycle} answers where no task is due. */
    static final int IDLE = -1;

    private static final int CANCEL = 3;
    private static final int FAULT = -2;
    private static final int FIRST_NOTE = 8;
    private static final int NOTE = 4;
    private static final int MOST_NOTES = 64;
    private static final int WORDS = MOST_NOTES * NOTE;
    /** Made with the first timers, since it has a thread, for which there may be no memory. */
    private static Cleaner cleaner;

    private final ByteBuffer bytes = ByteBuffer.allocateDirect(8 * (FIRST_NOTE + WORDS)).order(ByteOrder.nativeOrder());
    private final LongBuffer words = bytes.asLongBuffer();
    private final long room = address(bytes);
    private final Cleaner.Cleanable memory;
    private final long at;
    private final int workers;
    private int notes;
    private long numbers;
    /** The greatest moment so far, and the least one of the next call: it comes after what a worker was answered. */
    private long now, earliest;
    /** No task that waits is due before. It is exact after each call that reads it, and may be too early once a task is cancelled. */
    private long first = NEVER;

    /**
     * Makes timers without tasks.
     *
     * @param workers  how many workers they have, whose numbers begin with 0
     * @throws OutOfMemoryError where there is no memory outside the heap
     */
    Timers(int workers) {
        long made = make(workers);
        if (made == 0) throw new OutOfMemoryError("no memory outside the heap for timers");
        checked((int) Math.min(made, 0));
        this.workers = workers;
        at = made;
        try {
            memory = cleaner().register(this, () -> release(made));
        } catch (Throwable failure) {
            release(made);
            throw failure;
        }
    }

    private static synchronized Cleaner cleaner() {
        if (cleaner == null) cleaner = Cleaner.create();
        return cleaner;
    }

    /** Frees the timers. Nothing may be asked after it. */
    void close() {
        memory.clean();
    }

    /** How many workers they have. */
    final int workers() {
        return workers;
    }

    /** How many submissions there were. */
    final long numbers() {
        return numbers;
    }

    /** A moment before which no task is due; {@link #NEVER} where none waits. */
    final long first() {
        return first;
    }

    /** The moment of a call that is made when the clock shows {@code clock}. */
    final long callAt(long clock) {
        return now = Math.max(Math.max(clock, now), earliest);
    }

    private long roundAt(long clock) {
        now = Math.max(clock, now);
        earliest = now + 1;
        return now;
    }

    /** Whether there is memory for so many tasks now. Nothing changes where there is none. */
    final boolean reserve(int tasks) {
        return reserve(at, tasks);
    }

    /**
     * Submits a task, for which there is memory, at a place that no other task has.
     *
     * @param moment  what {@link #callAt} gave
     * @param delay   nanoseconds, at most {@link #LONGEST}
     * @param period  nanoseconds, at most {@link #LONGEST}; 0 of a task that runs once
     * @return its number
     */
    long submit(int kind, int place, long moment, long delay, long period) {
        first = Math.min(first, moment + delay);
        note(kind, place, moment, delay, period);
        return numbers++;
    }

    /** A submission that the pool has refused, since it is shut. It has a number where calls are recorded. */
    void rejected(int kind, long moment, long delay, long period) {}

    /** Notes a submission that the timers refuse, as they are shut. */
    final void submitInVain(int kind, long moment, long delay, long period) {
        note(kind, 0, moment, delay, period);
        numbers++;
    }

    /** Cancels the task of a place, which waits or is run, and was not cancelled before. */
    void cancel(int place, long number) {
        note(CANCEL, place, number, 0, 0);
    }

    private void note(int kind, int place, long one, long two, long three) {
        int word = FIRST_NOTE + NOTE * notes;
        words.put(word, kind | (long) place << 8);
        words.put(word + 1, one);
        words.put(word + 2, two);
        words.put(word + 3, three);
        if (++notes == MOST_NOTES) tell();
    }

    /** Tells the timers the notes. */
    final void tell() {
        checked(FAULT - apply(at, room, taken()));
    }

    private int taken() {
        int n = notes;
        notes = 0;
        return n;
    }

    /** An answer, which is no fault: what may be refused was looked at before. */
    private static int checked(int answer) {
        if (answer < FAULT) throw new AssertionError("the timers answered status " + (FAULT - answer));
        return answer;
    }

    /**
     * Ends a worker's run, where it has one, and begins the next, where it wants one: one of both.
     *
     * @return the place of the task that is begun, or {@link #IDLE}
     */
    int cycle(long clock, int worker, int ending, boolean wants) {
        int place = checked(cycle(at, room, taken(), roundAt(clock), worker, ending, wants));
        first = words.get(0);
        return place;
    }

    /** What became of the task whose run the last cycle ended. */
    final long outcome() {
        return words.get(1);
    }

    /** The moment at which the task is due next whose run the last cycle ended, where it is {@link #AGAIN}. */
    final long next() {
        return words.get(2);
    }

    /** Sets a policy, or shuts the timers down. The answer is how many tasks that ended. */
    int rule(long clock, int which, boolean value) {
        int ended = checked(rule(at, room, taken(), callAt(clock), which, value));
        first = words.get(0);
        return ended;
    }

    /** Reads some of the tasks that the last rule ended, from one on, in the order of their numbers. The answer is how many. */
    final int ended(int from) {
        return ended(at, room, from, WORDS);
    }

    /** The place of one of those that were read last. */
    final int endedPlace(int i) {
        return (int) words.get(FIRST_NOTE + i);
    }

    /** Whether the timers are shut, and no task is alive. */
    final boolean isTerminated() {
        return terminated(at, room, taken());
    }

    /** Asks how many tasks there are: a call that has a line, and no other effect. */
    final void ask(long clock) {
        checked(FAULT - ask(at, callAt(clock)));
    }

    /** The moment of the last call, or of what a worker did last. */
    final long now() {
        return now;
    }

    /**
     * The text of the lines of the last call, each with its end.
     *
     * @throws IllegalStateException where a line cannot name its task, whose number is 2<sup>32</sup> or more
     */
    final String text() {
        StringBuilder text = new StringBuilder();
        int from = 0;
        for (;;) {
            int length = text(at, room, from, WORDS);
            if (length < 0) throw new IllegalStateException("no trace names a task by 2^32 or more");
            if (length == 0) return text.toString();
            from += (int) words.get(0);
            for (int i = 0; i < length; i++) text.append((char) bytes.get(8 * FIRST_NOTE + i));
        }
    }

    static native boolean fits();
    private static native long address(ByteBuffer buffer);
    private static native long make(int workers);
    private static native void release(long at);
    private native boolean reserve(long at, int tasks);
    private native int apply(long at, long room, int notes);
    private native int cycle(long at, long room, int notes, long now, int worker, int ending, boolean wants);
    private native int rule(long at, long room, int notes, long now, int which, boolean value);
    private native int ended(long at, long room, int from, int most);
    private native boolean terminated(long at, long room, int notes);
    private native int ask(long at, long now);
    private native int text(long at, long room, int from, int words);
}
