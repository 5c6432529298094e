import java.util.concurrent.DelayQueue;
import java.util.concurrent.Delayed;
import java.util.concurrent.TimeUnit;

/**
 * How long the calls of Java's DelayQueue take, in nanoseconds each, over the entries of queue.c. Its remove goes over all
 * entries, so only the first 1,000 tasks are taken out at 65,536 entries, and the first 50 above; the others are polled.
 */
public final class Queue {
    static long now = 0;

    record Entry(long due, int task) implements Delayed {
        public long getDelay(TimeUnit unit) {
            return unit.convert(due - now, TimeUnit.NANOSECONDS);
        }

        public int compareTo(Delayed other) {
            Entry e = (Entry) other;
            int order = Long.compare(due, e.due);
            return order != 0 ? order : Integer.compare(task, e.task);
        }
    }

    static long state = 1;

    static long mixed() {
        state = state * 6364136223846793005L + 1442695040888963407L;
        return state >>> 33;
    }

    public static void main(String[] args) {
        int count = Integer.parseInt(args[0]);
        int most = count > 65_536 ? 50 : 1_000;
        int[] order = new int[count];
        for (int i = 0; i < count; i++) order[i] = i;
        for (int i = count; i > 1; i--) {
            int j = (int) (mixed() % i), kept = order[i - 1];
            order[i - 1] = order[j];
            order[j] = kept;
        }
        Entry[] entries = new Entry[count];
        for (int i = 0; i < count; i++) entries[i] = new Entry(mixed(), i);
        DelayQueue<Entry> queue = new DelayQueue<>();
        double[] best = {Double.MAX_VALUE, Double.MAX_VALUE, Double.MAX_VALUE};
        long sum = 0;
        for (int round = 0; round < 20; round++) {
            long t0 = System.nanoTime();
            for (int task : order) queue.add(entries[task]);
            long t1 = System.nanoTime();
            for (int i = 0; i < most; i++) queue.remove(entries[order[i]]);
            long t2 = System.nanoTime();
            now = Long.MAX_VALUE;
            int polled = 0;
            sum = 0;
            for (Entry e = queue.poll(); e != null; e = queue.poll()) {
                sum = sum * 31 + e.task;
                polled++;
            }
            long t3 = System.nanoTime();
            now = 0;
            if (polled != count - most) throw new AssertionError("another number of entries came out");
            double[] parts = {(t1 - t0) / (double) count, (t2 - t1) / (double) most, (t3 - t2) / (double) polled};
            for (int i = 0; i < 3; i++) best[i] = Math.min(best[i], parts[i]);
        }
        System.out.printf("DelayQueue %d insert %.1f remove %.1f poll %.1f sum %d%n", count, best[0], best[1], best[2], sum);
    }
}
