import com.zaxxer.hikari.HikariConfig;
import com.zaxxer.hikari.HikariDataSource;
import java.lang.reflect.InvocationHandler;
import java.lang.reflect.Proxy;
import java.sql.Connection;
import java.util.concurrent.ScheduledThreadPoolExecutor;
import java.util.concurrent.TimeUnit;
import java.util.concurrent.atomic.AtomicInteger;
import javax.sql.DataSource;

/** HikariCP by `setScheduledExecutor`: each connection that is lent sets a timeout and cancels it. */
public final class OverHikari implements Clients.Client {
    private final AtomicInteger opened = new AtomicInteger(), closed = new AtomicInteger();

    private static Object proxy(Class<?> type, InvocationHandler handler) {
        return Proxy.newProxyInstance(OverHikari.class.getClassLoader(), new Class<?>[] {type}, handler);
    }

    private static Object nothing(Class<?> type) {
        return type == boolean.class ? (Object) false : type == int.class ? (Object) 0 : null;
    }

    private DataSource source() {
        return (DataSource) proxy(DataSource.class, (source, call, words) -> {
            if (!call.getName().equals("getConnection")) return nothing(call.getReturnType());
            opened.incrementAndGet();
            return proxy(Connection.class, (connection, asked, more) -> {
                if (asked.getName().equals("close")) closed.incrementAndGet();
                return asked.getName().equals("isValid") ? true : nothing(asked.getReturnType());
            });
        });
    }

    @Override
    public String over(Clients.Pools pools) throws Exception {
        opened.set(0);
        closed.set(0);
        ScheduledThreadPoolExecutor pool = pools.pool(1);
        pool.setRemoveOnCancelPolicy(true);
        HikariConfig config = new HikariConfig();
        config.setDataSource(source());
        config.setScheduledExecutor(pool);
        config.setMaximumPoolSize(5);
        config.setMinimumIdle(2);
        config.setLeakDetectionThreshold(2000);
        config.setMaxLifetime(30_000);
        int queued;
        try (HikariDataSource data = new HikariDataSource(config)) {
            for (int i = 0; i < 10_000; i++) {
                try (Connection connection = data.getConnection()) {
                    connection.isClosed();
                }
            }
            Thread.sleep(300);
            queued = pool.getQueue().size();
        }
        pool.shutdown();
        boolean ends = pool.awaitTermination(30, TimeUnit.SECONDS);
        return "few in the queue " + (queued > 0 && queued < 10) + ", all closed " + (opened.get() == closed.get()) + ", ends " + ends;
    }
}
