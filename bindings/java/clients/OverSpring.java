import java.util.concurrent.CountDownLatch;
import java.util.concurrent.RejectedExecutionHandler;
import java.util.concurrent.ScheduledExecutorService;
import java.util.concurrent.ScheduledFuture;
import java.util.concurrent.ScheduledThreadPoolExecutor;
import java.util.concurrent.ThreadFactory;
import java.util.concurrent.TimeUnit;
import org.springframework.scheduling.concurrent.ThreadPoolTaskScheduler;
import org.springframework.scheduling.support.PeriodicTrigger;

/** Spring by a `ThreadPoolTaskScheduler` whose `createExecutor` is overridden. */
public final class OverSpring implements Clients.Client {
    @Override
    public String over(Clients.Pools pools) throws Exception {
        ThreadPoolTaskScheduler scheduler = new ThreadPoolTaskScheduler() {
            @Override
            protected ScheduledExecutorService createExecutor(int size, ThreadFactory factory, RejectedExecutionHandler handler) {
                ScheduledThreadPoolExecutor pool = pools.pool(size);
                pool.setThreadFactory(factory);
                pool.setRejectedExecutionHandler(handler);
                return pool;
            }
        };
        scheduler.setPoolSize(2);
        scheduler.setRemoveOnCancelPolicy(true);
        scheduler.initialize();
        CountDownLatch five = new CountDownLatch(5), three = new CountDownLatch(3);
        ScheduledFuture<?> rate = scheduler.scheduleAtFixedRate(five::countDown, 2);
        boolean beats = five.await(30, TimeUnit.SECONDS);
        rate.cancel(false);
        ScheduledFuture<?> trigger = scheduler.schedule(three::countDown, new PeriodicTrigger(3));
        beats &= three.await(30, TimeUnit.SECONDS);
        trigger.cancel(true);
        String name = scheduler.submit(() -> Thread.currentThread().getName().replaceAll("[0-9]", "")).get();
        ScheduledThreadPoolExecutor pool = scheduler.getScheduledThreadPoolExecutor();
        int queued = pool.getQueue().size();
        scheduler.shutdown();
        return beats + " " + name + ", in the queue " + queued + ", ends " + pool.awaitTermination(30, TimeUnit.SECONDS);
    }
}
