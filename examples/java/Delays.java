import java.util.concurrent.Callable;
import java.util.concurrent.ScheduledFuture;
import java.util.concurrent.ScheduledThreadPoolExecutor;
import java.util.concurrent.TimeUnit;

/** A delay that is longer than 2^62 nanoseconds. */
final class Delays {
    private Delays() {}

    static void longest() {
        ScheduledThreadPoolExecutor pool = new ScheduledThreadPoolExecutor(1);
        ScheduledFuture<Long> future = pool.schedule((Callable<Long>) () -> 7L, 60_000, TimeUnit.DAYS);
        long days = future.getDelay(TimeUnit.DAYS) + 1; // with the one that has begun
        System.out.println("0 submit 0 schedule due " + TimeUnit.DAYS.toNanos(days));
        System.out.println("0 clock");
        pool.shutdownNow();
    }
}
