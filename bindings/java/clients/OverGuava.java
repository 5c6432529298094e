import com.google.common.util.concurrent.AbstractScheduledService;
import com.google.common.util.concurrent.Futures;
import com.google.common.util.concurrent.ListenableScheduledFuture;
import com.google.common.util.concurrent.MoreExecutors;
import com.google.common.util.concurrent.SettableFuture;
import java.util.concurrent.CountDownLatch;
import java.util.concurrent.ExecutionException;
import java.util.concurrent.ScheduledExecutorService;
import java.util.concurrent.ScheduledThreadPoolExecutor;
import java.util.concurrent.TimeUnit;

/** Guava by `listeningDecorator`, `withTimeout`, `AbstractScheduledService` and `getExitingScheduledExecutorService`. */
public final class OverGuava implements Clients.Client {
    private static String late(ScheduledThreadPoolExecutor pool) throws InterruptedException {
        try {
            return "" + Futures.withTimeout(SettableFuture.create(), 30, TimeUnit.MILLISECONDS, pool).get();
        } catch (ExecutionException thrown) {
            return thrown.getCause().getClass().getSimpleName();
        }
    }

    private static boolean beats(ScheduledThreadPoolExecutor pool) throws Exception {
        CountDownLatch five = new CountDownLatch(5);
        AbstractScheduledService service = new AbstractScheduledService() {
            @Override
            protected void runOneIteration() {
                five.countDown();
            }

            @Override
            protected Scheduler scheduler() {
                return Scheduler.newFixedDelaySchedule(1, 2, TimeUnit.MILLISECONDS);
            }

            @Override
            protected ScheduledExecutorService executor() {
                return pool;
            }
        };
        service.startAsync().awaitRunning();
        boolean beats = five.await(30, TimeUnit.SECONDS);
        service.stopAsync().awaitTerminated(30, TimeUnit.SECONDS);
        return beats;
    }

    @Override
    public String over(Clients.Pools pools) throws Exception {
        ScheduledThreadPoolExecutor pool = pools.pool(2);
        CountDownLatch heard = new CountDownLatch(1);
        ListenableScheduledFuture<Integer> value = MoreExecutors.listeningDecorator((ScheduledExecutorService) pool).schedule(() -> 6, 20, TimeUnit.MILLISECONDS);
        value.addListener(heard::countDown, Runnable::run);
        String said = value.get() + " " + heard.await(30, TimeUnit.SECONDS) + " " + late(pool) + " " + beats(pool);
        ScheduledExecutorService exits = MoreExecutors.getExitingScheduledExecutorService(pool, 1, TimeUnit.SECONDS);
        exits.shutdown();
        return said + " " + exits.awaitTermination(30, TimeUnit.SECONDS);
    }
}
