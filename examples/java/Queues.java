import java.util.concurrent.DelayQueue;
import java.util.concurrent.Delayed;
import java.util.concurrent.TimeUnit;

/** A DelayQueue whose elements expire at the same moment. The clock is a number, so no time has to go by. */
final class Queues {
    private static long now;

    private Queues() {}

    private record Task(int number, long due) implements Delayed {
        @Override
        public long getDelay(TimeUnit unit) {
            return unit.convert(due - now, TimeUnit.NANOSECONDS);
        }

        @Override
        public int compareTo(Delayed other) {
            return Long.compare(due, ((Task) other).due);
        }
    }

    static void ties() {
        DelayQueue<Task> queue = new DelayQueue<>();
        for (int number = 0; number < 3; number++) {
            queue.put(new Task(number, 5));
            System.out.printf("%d submit %d schedule due %d%n", now, number, 5);
        }
        now = 5;
        System.out.printf("%d clock%n", now);
        for (Task task = queue.poll(); task != null; task = queue.poll()) {
            System.out.printf("%d start 0 task %d run 0 due %d%n", now, task.number(), task.due());
            System.out.printf("%d finish 0 task %d run 0 done 7%n", now, task.number());
        }
    }
}
