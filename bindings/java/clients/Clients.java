import java.util.concurrent.ScheduledThreadPoolExecutor;
import sched.timers.TimersThreadPoolExecutor;

/** Runs a program of others over ours and over Java's class: the words are the names of clients, and each has to tell the same of both. */
public final class Clients {
    /** A program of others, over pools of one of the classes. */
    interface Client {
        String over(Pools pools) throws Exception;
    }

    /** Makes pools of one of the classes. */
    interface Pools {
        ScheduledThreadPoolExecutor pool(int core);
    }

    private Clients() {}

    private static String told(Client client, Pools pools) {
        try {
            return client.over(pools);
        } catch (Throwable thrown) {
            thrown.printStackTrace(System.out);
            return thrown.toString();
        }
    }

    public static void main(String[] names) throws Exception {
        int failed = 0;
        for (String name : names) {
            Client client = (Client) Class.forName(name).getDeclaredConstructor().newInstance();
            String ours = told(client, TimersThreadPoolExecutor::new), theirs = told(client, ScheduledThreadPoolExecutor::new);
            boolean good = ours.equals(theirs);
            if (!good) failed++;
            System.out.println(name + ": " + (good ? ours : "FAILED: ours " + ours + ", Java's " + theirs));
        }
        System.out.println(names.length - failed + " passed, " + failed + " failed");
        System.exit(failed == 0 ? 0 : 1);
    }
}
