package sched.timers;

import java.util.concurrent.Callable;
import java.util.concurrent.Delayed;
import java.util.concurrent.FutureTask;
import java.util.concurrent.RunnableScheduledFuture;
import java.util.concurrent.TimeUnit;

/**
 * A task of a pool, and its future. Whether it is done or cancelled, and which of a cancel and the end of a run comes first, is decided by
 * {@link FutureTask}; when it runs, by the timers, which are told of both.
 */
final class ScheduledTask<V> extends FutureTask<V> implements RunnableScheduledFuture<V> {
    /** It waits for a run; it was cancelled while it waited, and stands in the queue still; neither, and no run of it is under way. */
    private static final int WAITING = -1, KEPT = -2, GONE = -3;
    /** Added to the number of its worker where the timers know that a task is cancelled which runs. */
    private static final int TOLD = 0x100;

    private final Desk desk;
    /** As in Java's class: positive of a fixed rate, negative of a fixed delay, in nanoseconds; 0 of a task that runs once. */
    private final long period;
    /** When it is due, by {@link System#nanoTime}. */
    private volatile long time;
    /** What stands in the queue in its place: what decorateTask made of it. */
    RunnableScheduledFuture<V> outer = this;

    // All below is guarded by the lock of the desk.
    /** The number of its submission, and its place: among what is kept where it stands there, else in the table until it goes. */
    long number;
    int place;
    /** Its worker while it runs, perhaps with {@link #TOLD}; else one of the three above. */
    private int seat = GONE;

    ScheduledTask(Desk desk, Runnable job, V value, long time, long period) {
        super(job, value);
        this.desk = desk;
        this.time = time;
        this.period = period;
    }

    ScheduledTask(Desk desk, Callable<V> job, long time) {
        super(job);
        this.desk = desk;
        this.time = time;
        this.period = 0;
    }

    @Override
    public long getDelay(TimeUnit unit) {
        return unit.convert(time - System.nanoTime(), TimeUnit.NANOSECONDS);
    }

    @Override
    public int compareTo(Delayed other) {
        if (other == this) return 0;
        if (!(other instanceof ScheduledTask)) return Long.signum(getDelay(TimeUnit.NANOSECONDS) - other.getDelay(TimeUnit.NANOSECONDS));
        ScheduledTask<?> that = (ScheduledTask<?>) other;
        long apart = time - that.time;
        return apart != 0 ? Long.signum(apart) : number < that.number ? -1 : 1;
    }

    @Override
    public boolean isPeriodic() {
        return period != 0;
    }

    @Override
    public boolean cancel(boolean mayInterruptIfRunning) {
        boolean cancelled = super.cancel(mayInterruptIfRunning);
        if (cancelled) desk.cancelled(this);
        return cancelled;
    }

    @Override
    public void run() {
        if (!desk.mayRun(this)) cancel(false);
        else if (!isPeriodic()) super.run();
        else if (super.runAndReset()) desk.again(this);
        else if (!isDone()) desk.passedOver(this); // another run of it goes on
    }

    @Override
    protected void setException(Throwable thrown) {
        super.setException(thrown);
        desk.failed(this);
    }

    // ---- for the desk

    int kind() {
        return period == 0 ? Timers.ONCE : period > 0 ? Timers.RATE : Timers.FIXED;
    }

    /** Its period or fixed delay, cut to what the timers take. */
    long span() {
        return Math.min(Math.abs(period), Timers.LONGEST);
    }

    long time() {
        return time;
    }

    void dueAt(long nanoTime) {
        time = nanoTime;
    }

    boolean isOf(Desk other) {
        return desk == other;
    }

    boolean isWaiting() {
        return seat == WAITING;
    }

    boolean isKept() {
        return seat == KEPT;
    }

    boolean isRunning() {
        return seat >= 0;
    }

    boolean isRunBy(int worker) {
        return seat >= 0 && (seat & ~TOLD) == worker;
    }

    /** Its worker, while it runs. */
    int worker() {
        return seat & ~TOLD;
    }

    boolean isTold() {
        return (seat & TOLD) != 0;
    }

    void waits() {
        seat = WAITING;
    }

    void runs(int worker) {
        seat = worker;
    }

    void isToldNow() {
        seat |= TOLD;
    }

    void keeps() {
        seat = KEPT;
    }

    void goes() {
        seat = GONE;
    }
}
