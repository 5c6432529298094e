package sched.timers;

import java.util.AbstractQueue;
import java.util.Collection;
import java.util.Iterator;
import java.util.List;
import java.util.Objects;
import java.util.concurrent.BlockingQueue;
import java.util.concurrent.TimeUnit;

/**
 * A view of what stands in a pool's queue. An iterator goes over what stood there when it was made, in no order. Tasks are taken out by
 * remove, poll and drainTo; what puts one in, or waits for one, is refused by an UnsupportedOperationException.
 */
final class QueueView extends AbstractQueue<Runnable> implements BlockingQueue<Runnable> {
    private final Desk desk;

    QueueView(Desk desk) {
        this.desk = desk;
    }

    @Override
    public int size() {
        return desk.queueSize();
    }

    @Override
    public Iterator<Runnable> iterator() {
        Iterator<ScheduledTask<?>> tasks = desk.queue().iterator();
        return new Iterator<>() {
            private ScheduledTask<?> last;

            @Override
            public boolean hasNext() {
                return tasks.hasNext();
            }

            @Override
            public Runnable next() {
                last = tasks.next();
                return last.outer;
            }

            @Override
            public void remove() {
                if (last == null) throw new IllegalStateException();
                desk.remove(last);
                last = null;
            }
        };
    }

    @Override
    public boolean contains(Object task) {
        return task != null && found(task) != null;
    }

    @Override
    public boolean remove(Object task) {
        ScheduledTask<?> found = task == null ? null : found(task);
        return found != null && desk.remove(found);
    }

    /** The task in the queue that is this object, or has it in its place; null where there is none. */
    private ScheduledTask<?> found(Object task) {
        if (task instanceof ScheduledTask) {
            ScheduledTask<?> own = (ScheduledTask<?>) task;
            return own.isOf(desk) && own.outer == own && desk.isQueued(own) ? own : null;
        }
        for (ScheduledTask<?> queued : desk.queue()) if (task.equals(queued.outer)) return queued;
        return null;
    }

    @Override
    public Runnable peek() {
        return outer(desk.head(false));
    }

    @Override
    public Runnable poll() {
        return outer(desk.head(true));
    }

    private static Runnable outer(ScheduledTask<?> task) {
        return task == null ? null : task.outer;
    }

    @Override
    public int drainTo(Collection<? super Runnable> to) {
        return drainTo(to, Integer.MAX_VALUE);
    }

    @Override
    public int drainTo(Collection<? super Runnable> to, int most) {
        Objects.requireNonNull(to);
        if (to == this) throw new IllegalArgumentException();
        int n = 0;
        for (ScheduledTask<?> task : most <= 0 ? List.<ScheduledTask<?>>of() : desk.dueTasks()) {
            if (n == most) break;
            if (!desk.remove(task)) continue; // a worker took it meanwhile
            to.add(task.outer);
            n++;
        }
        return n;
    }

    @Override
    public void clear() {
        List<ScheduledTask<?>> tasks = desk.queue();
        tasks.forEach(desk::remove);
    }

    @Override
    public int remainingCapacity() {
        return Integer.MAX_VALUE;
    }

    @Override
    public boolean offer(Runnable task) {
        throw refused();
    }

    @Override
    public boolean offer(Runnable task, long span, TimeUnit unit) {
        throw refused();
    }

    @Override
    public void put(Runnable task) {
        throw refused();
    }

    @Override
    public Runnable take() {
        throw refused();
    }

    @Override
    public Runnable poll(long span, TimeUnit unit) {
        throw refused();
    }

    private static UnsupportedOperationException refused() {
        return new UnsupportedOperationException("the queue of a TimersThreadPoolExecutor is a view: submit a task to the executor");
    }
}
