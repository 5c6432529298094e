package sched.timers;

import java.util.ArrayList;
import java.util.List;
import java.util.concurrent.TimeUnit;

/** Workers that are to go, whose threads have not ended yet: no program can hold them there, so they are called by hand. */
public final class Leaving {
    private Leaving() {}

    /** How many workers can be started while as many as there may be are to go. */
    public static int startedMeanwhile() {
        List<Worker> workers = new ArrayList<>();
        TimersThreadPoolExecutor pool = new TimersThreadPoolExecutor(Timers.MOST_WORKERS, job -> {
            workers.add((Worker) job);
            return new Thread(() -> {});
        });
        pool.setKeepAliveTime(1, TimeUnit.NANOSECONDS);
        pool.allowCoreThreadTimeOut(true);
        Desk desk = new Desk(pool);
        int first = started(desk);
        goes(desk, workers.subList(0, first));
        int meanwhile = started(desk);
        if (first != Timers.MOST_WORKERS || desk.poolSize() != first + meanwhile) throw new AssertionError(first + " and " + meanwhile + " of " + desk.poolSize());
        goes(desk, workers.subList(first, first + meanwhile));
        for (Worker worker : workers) desk.exit(worker, false);
        if (desk.poolSize() != 0) throw new AssertionError(desk.poolSize() + " are left");
        pool.shutdown();
        return meanwhile;
    }

    private static void goes(Desk desk, List<Worker> workers) {
        for (Worker worker : workers) if (desk.take(worker)) throw new AssertionError("there is no task");
    }

    private static int started(Desk desk) {
        int started = 0;
        while (desk.startWorker(Timers.MOST_WORKERS)) started++;
        return started;
    }
}
