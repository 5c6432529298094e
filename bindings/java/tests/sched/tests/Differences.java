package sched.tests;

import static java.util.concurrent.TimeUnit.HOURS;

import java.util.ArrayList;
import java.util.List;
import java.util.concurrent.RunnableScheduledFuture;
import java.util.concurrent.ScheduledFuture;
import java.util.concurrent.ScheduledThreadPoolExecutor;
import java.util.concurrent.TimeUnit;
import sched.timers.Limits;
import sched.timers.TimersThreadPoolExecutor;

/** What differs from Java's class, each as its page says, on both sides. */
final class Differences {
    private Differences() {}

    private static void differs(String name, int core, Scenes.Scene scene, String ours, String theirs) {
        Runner.same("difference, " + name + ", ours", ours, () -> Scenes.told(scene, Scenes.pool(true, core)));
        Runner.same("difference, " + name + ", Java's", theirs, () -> Scenes.told(scene, Scenes.pool(false, core)));
    }

    static void run() {
        int most = TimersThreadPoolExecutor.MOST_WORKERS;
        String refused = "java.lang.IllegalArgumentException: a TimersThreadPoolExecutor has at most " + most + " threads, and " + (most + 1) + " were asked for";
        Runner.same("difference, the size of a constructor", refused, () -> {
            try {
                return new TimersThreadPoolExecutor(most + 1);
            } catch (IllegalArgumentException thrown) {
                return thrown.toString();
            }
        });
        Runner.holds("difference, the size is the library's", Limits::workers);
        differs("the size that is set", 1, pool -> {
            pool.setCorePoolSize(most);
            pool.setCorePoolSize(most + 1);
            return pool.getCorePoolSize();
        }, refused, String.valueOf(most + 1));
        differs("the order of shutdownNow", 1, pool -> {
            List<ScheduledFuture<?>> all = new ArrayList<>();
            for (int i : new int[] {9, 7, 8}) all.add(pool.schedule(Scenes.NOTHING, i, HOURS));
            all.get(1).cancel(false);
            StringBuilder said = new StringBuilder();
            for (Runnable each : pool.shutdownNow()) said.append(all.indexOf(each));
            return said;
        }, "012", "102");
        for (String call : List.of("add", "offer", "put", "take", "poll"))
            Runner.same("difference, the queue's " + call, "UnsupportedOperationException", () -> queueCall(call));
        differs("long delays", 1, pool -> {
            ScheduledFuture<?> far = pool.schedule(Scenes.NOTHING, Long.MAX_VALUE, TimeUnit.NANOSECONDS);
            return far.getDelay(TimeUnit.DAYS);
        }, "53375", Runtime.version().feature() == 17 ? "106751" : "53375"); // later versions cut them too
        differs("a periodic task that is run by hand", 1, pool -> {
            ScheduledFuture<?> rate = pool.scheduleAtFixedRate(Scenes.NOTHING, 1, 1, HOURS);
            ((Runnable) rate).run();
            return pool.getQueue().size() + " " + rate.getDelay(TimeUnit.MINUTES);
        }, "1 59", "2 119");
        decorated();
    }

    private static String queueCall(String call) {
        ScheduledThreadPoolExecutor pool = Scenes.pool(true, 1);
        try {
            return Scenes.thrownBy(() -> {
                if (call.equals("add")) pool.getQueue().add(Scenes.NOTHING);
                else if (call.equals("offer")) pool.getQueue().offer(Scenes.NOTHING);
                else if (call.equals("put")) pool.getQueue().put(Scenes.NOTHING);
                else if (call.equals("take")) pool.getQueue().take();
                else pool.getQueue().poll(1, HOURS);
                return "";
            });
        } finally {
            pool.shutdownNow();
        }
    }

    private static void decorated() {
        for (boolean ours : new boolean[] {true, false})
            Runner.same("difference, a decorated task is removed by the policy, " + (ours ? "ours" : "Java's"), ours ? 0 : 1, () -> {
                ScheduledThreadPoolExecutor pool = decorating().pool(ours, 1);
                pool.setRemoveOnCancelPolicy(true);
                pool.schedule(Scenes.NOTHING, 1, HOURS).cancel(false);
                int size = pool.getQueue().size();
                pool.shutdownNow();
                return size;
            });
    }

    private static Hooks decorating() {
        return new Hooks() {
            @Override
            <V> RunnableScheduledFuture<V> decorate(RunnableScheduledFuture<V> task) {
                return new Decorated<>(task);
            }
        };
    }
}
