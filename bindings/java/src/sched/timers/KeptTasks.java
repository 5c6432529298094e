package sched.timers;

import java.util.Arrays;
import java.util.function.Consumer;

/**
 * The cancelled tasks that stand in the queue still, until they are due, since the policy to remove them was not set: a binary heap by due
 * moment and number. Whoever calls holds the lock of the pool. It never shrinks, as the queue of Java's class.
 *
 * <p>The timers have let go of them: a poll that meets a kept task drops it, and does not tell which one, while Java's class has a worker
 * take it at its moment, with all hooks. So a pool's timers always have the policy to remove, and what Java's queue does with a cancelled
 * task is done here.
 */
final class KeptTasks {
    private static final int MOST = Integer.MAX_VALUE - 8;

    private ScheduledTask<?>[] heap = new ScheduledTask<?>[0];
    private int size;

    /**
     * Makes sure of room for so many tasks, so that keeping one never wants memory.
     *
     * @throws OutOfMemoryError where there is none: nothing has changed then
     */
    void reserve(long tasks) {
        if (tasks <= heap.length) return;
        if (tasks > MOST) throw new OutOfMemoryError(tasks + " tasks");
        heap = Arrays.copyOf(heap, (int) Math.min(MOST, Math.max(tasks, heap.length * 3L / 2)));
    }

    /** Keeps one. There is room. */
    void add(ScheduledTask<?> task) {
        task.keeps();
        rise(size++, task);
    }

    int size() {
        return size;
    }

    /** The first one, or null. */
    ScheduledTask<?> first() {
        return size == 0 ? null : heap[0];
    }

    /** Takes the first one out. */
    ScheduledTask<?> takeFirst() {
        ScheduledTask<?> task = heap[0];
        remove(task);
        return task;
    }

    void remove(ScheduledTask<?> task) {
        ScheduledTask<?> last = heap[--size];
        heap[size] = null;
        if (last != task) {
            sink(task.place, last);
            rise(last.place, last);
        }
        task.goes();
    }

    void clear() {
        forEach(ScheduledTask::goes);
        Arrays.fill(heap, 0, size, null);
        size = 0;
    }

    void forEach(Consumer<ScheduledTask<?>> what) {
        for (int at = 0; at < size; at++) what.accept(heap[at]);
    }

    /** Puts a task at a place, or above it, below a task that comes before it. */
    private void rise(int from, ScheduledTask<?> task) {
        int at = from;
        for (int above; at > 0 && task.compareTo(heap[above = (at - 1) / 2]) < 0; at = above) put(at, heap[above]);
        put(at, task);
    }

    /** Puts a task at a place, or below it, above tasks that come after it. */
    private void sink(int from, ScheduledTask<?> task) {
        int at = from;
        for (int below; (below = 2 * at + 1) > 0 && below < size; at = below) {
            if (below + 1 < size && heap[below + 1].compareTo(heap[below]) < 0) below++;
            if (task.compareTo(heap[below]) < 0) break;
            put(at, heap[below]);
        }
        put(at, task);
    }

    private void put(int at, ScheduledTask<?> task) {
        heap[at] = task;
        task.place = at;
    }
}
