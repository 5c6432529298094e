package sched.tests;

import static java.util.concurrent.TimeUnit.HOURS;
import static java.util.concurrent.TimeUnit.MILLISECONDS;
import static java.util.concurrent.TimeUnit.SECONDS;

import java.util.ArrayList;
import java.util.List;
import java.util.concurrent.Future;
import java.util.concurrent.ScheduledFuture;
import sched.timers.TimersThreadPoolExecutor;

/** Want of memory, in the heap and outside, and pools that are forgotten. */
final class Faults {
    private Faults() {}

    static void run() throws Exception {
        Runner.holds("memory, a pool that ends gives its own back", Faults::givesBack);
        Runner.holds("memory, a constructor that is refused some", Faults::refusedConstructor);
        Runner.holds("memory, a submission that is refused some changes nothing", Faults::refusedSubmission);
        Runner.holds("memory, each growth of a pool's life refused in turn", Faults::refusedInTurn);
        Runner.holds("memory, pools that are forgotten give theirs back", Faults::forgotten);
    }

    private static boolean givesBack() throws Exception {
        long before = Memory.blocks();
        TimersThreadPoolExecutor pool = new TimersThreadPoolExecutor(2);
        for (int i = 0; i < 1000; i++) pool.schedule(Scenes.NOTHING, 1, HOURS);
        boolean takes = Memory.blocks() > before;
        pool.shutdownNow();
        return takes && pool.awaitTermination(30, SECONDS) && Memory.blocks() == before;
    }

    private static boolean refusedConstructor() {
        long before = Memory.blocks();
        int refused = 0;
        try {
            for (int allowed = 0; ; allowed++) {
                Memory.allow(allowed);
                try {
                    TimersThreadPoolExecutor pool = new TimersThreadPoolExecutor(1);
                    Memory.allow(-1);
                    pool.shutdown();
                    return refused > 0 && Memory.blocks() == before;
                } catch (OutOfMemoryError error) {
                    refused++;
                    if (Memory.blocks() != before) return false;
                }
            }
        } finally {
            Memory.allow(-1);
        }
    }

    private static boolean refusedSubmission() throws Exception {
        TimersThreadPoolExecutor pool = new TimersThreadPoolExecutor(1);
        try {
            List<ScheduledFuture<?>> tasks = new ArrayList<>();
            Memory.allow(0);
            int refused = 0;
            for (int i = 0; i < 100; i++) {
                try {
                    tasks.add(pool.schedule(Scenes.NOTHING, 1, HOURS));
                } catch (OutOfMemoryError error) {
                    refused++;
                }
            }
            boolean unchanged = refused > 0 && pool.getQueue().size() == tasks.size() && pool.getTaskCount() == tasks.size();
            Memory.allow(-1);
            Future<Integer> value = pool.submit(() -> 5);
            return unchanged && value.get(30, SECONDS) == 5 && pool.shutdownNow().size() == tasks.size() && pool.awaitTermination(30, SECONDS);
        } finally {
            Memory.allow(-1);
        }
    }

    /** With the first growth refused, then the second, and so on: submissions throw, and nothing else does. */
    private static boolean refusedInTurn() throws Exception {
        long before = Memory.blocks();
        for (int allowed = 0; allowed < 40; allowed++) {
            TimersThreadPoolExecutor pool = new TimersThreadPoolExecutor(2);
            int accepted = 0, ran = 0;
            List<Future<?>> tasks = new ArrayList<>();
            Memory.allow(allowed);
            for (int i = 0; i < 300; i++) {
                try {
                    tasks.add(pool.schedule(Scenes.NOTHING, i % 3, MILLISECONDS));
                    accepted++;
                } catch (OutOfMemoryError error) {
                    continue;
                }
                if (i % 7 == 0) tasks.get(accepted - 1).cancel(false);
                if (i == 200) pool.purge();
            }
            pool.shutdown();
            boolean ends = pool.awaitTermination(30, SECONDS);
            Memory.allow(-1);
            for (Future<?> task : tasks) ran += task.isDone() ? 1 : 0;
            if (!ends || ran != accepted || Memory.blocks() != before) return false;
        }
        return true;
    }

    /** Pools without threads, since their factory gives none: nothing leads to them but their tasks. */
    private static boolean forgotten() throws Exception {
        long before = Memory.blocks();
        for (int i = 0; i < 200; i++) {
            TimersThreadPoolExecutor pool = new TimersThreadPoolExecutor(1, job -> null);
            for (int k = 0; k < 100; k++) pool.schedule(Scenes.NOTHING, 1, HOURS);
        }
        TimersThreadPoolExecutor idle = new TimersThreadPoolExecutor(0);
        idle.submit(Scenes.NOTHING).get();
        Scenes.eventually(() -> new ArrayList<Thread>(Thread.getAllStackTraces().keySet()).stream().noneMatch(thread -> thread.getName().startsWith("pool-")));
        boolean takes = Memory.blocks() > before;
        idle = null;
        Scenes.eventually(() -> {
            System.gc();
            return Memory.blocks() <= before;
        });
        return takes && Memory.blocks() == before;
    }
}
