package sched.timers;

import java.util.Arrays;
import java.util.function.Consumer;

/**
 * Tasks by places, which are the numbers that the timers know them by. A place is given again once its task has gone. Whoever calls holds
 * the lock of the pool. It never shrinks, as the queue of Java's class.
 */
final class TaskTable {
    private static final int LEAST = 16;
    private static final int MOST = 1 << 30;

    private ScheduledTask<?>[] tasks = new ScheduledTask<?>[0];
    /** The places that were given up, as a stack; there is room for all, so that giving one up never wants memory. */
    private int[] free = new int[0];
    private int freed;
    /** The places from here on were never given. */
    private int used;

    /** How many tasks there are. */
    int size() {
        return used - freed;
    }

    /**
     * Makes sure of room for one more task, here and in the timers.
     *
     * @throws OutOfMemoryError where there is none: nothing has changed then
     */
    void reserve(Timers timers) {
        if (freed != 0 || used < tasks.length) return;
        if (tasks.length == MOST) throw new OutOfMemoryError("2^30 tasks");
        int more = (int) Math.min(MOST, Math.max(LEAST, tasks.length * 3L / 2)); // as the queue of Java's class
        ScheduledTask<?>[] wider = Arrays.copyOf(tasks, more);
        int[] longer = new int[more];
        if (!timers.reserve(more)) throw new OutOfMemoryError("no memory outside the heap for " + more + " tasks");
        tasks = wider;
        free = longer; // the old one is empty: no place was free
    }

    /** Gives a task a place. There is room. */
    int add(ScheduledTask<?> task) {
        int place = freed != 0 ? free[--freed] : used++;
        tasks[place] = task;
        return place;
    }

    ScheduledTask<?> at(int place) {
        return tasks[place];
    }

    /** Takes the task of a place out. */
    ScheduledTask<?> take(int place) {
        ScheduledTask<?> task = tasks[place];
        tasks[place] = null;
        free[freed++] = place;
        return task;
    }

    void forEach(Consumer<ScheduledTask<?>> what) {
        for (int place = 0; place < used; place++) if (tasks[place] != null) what.accept(tasks[place]);
    }

    /** Lets go of all memory. */
    void clear() {
        tasks = new ScheduledTask<?>[0];
        free = new int[0];
        freed = used = 0;
    }
}
