package sched.timers;

/** A worker: one of the numbers by which the timers know their workers, and the thread that has it. */
final class Worker implements Runnable {
    final int id;
    private final TimersThreadPoolExecutor pool;

    // All below is guarded by the lock of the desk.
    /** Null until it is about to be started. */
    Thread thread;
    /** The task that it was given, until it comes for the next one. */
    ScheduledTask<?> task;
    /** Whether the run failed. */
    boolean failed;

    Worker(TimersThreadPoolExecutor pool, int id) {
        this.pool = pool;
        this.id = id;
    }

    @Override
    public void run() {
        pool.work(this);
    }
}
