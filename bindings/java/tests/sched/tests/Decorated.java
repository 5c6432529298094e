package sched.tests;

import java.util.concurrent.Delayed;
import java.util.concurrent.ExecutionException;
import java.util.concurrent.RunnableScheduledFuture;
import java.util.concurrent.TimeUnit;
import java.util.concurrent.TimeoutException;

/** A task in place of a pool's own, which hands all on to that one. */
class Decorated<V> implements RunnableScheduledFuture<V> {
    final RunnableScheduledFuture<V> within;

    Decorated(RunnableScheduledFuture<V> within) {
        this.within = within;
    }

    @Override
    public void run() {
        within.run();
    }

    @Override
    public boolean isPeriodic() {
        return within.isPeriodic();
    }

    @Override
    public boolean cancel(boolean mayInterruptIfRunning) {
        return within.cancel(mayInterruptIfRunning);
    }

    @Override
    public boolean isCancelled() {
        return within.isCancelled();
    }

    @Override
    public boolean isDone() {
        return within.isDone();
    }

    @Override
    public V get() throws InterruptedException, ExecutionException {
        return within.get();
    }

    @Override
    public V get(long timeout, TimeUnit unit) throws InterruptedException, ExecutionException, TimeoutException {
        return within.get(timeout, unit);
    }

    @Override
    public long getDelay(TimeUnit unit) {
        return within.getDelay(unit);
    }

    @Override
    public int compareTo(Delayed other) {
        return within.compareTo(other instanceof Decorated ? ((Decorated<?>) other).within : other);
    }
}
