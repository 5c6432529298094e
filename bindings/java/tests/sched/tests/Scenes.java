package sched.tests;

import static java.util.concurrent.TimeUnit.HOURS;
import static java.util.concurrent.TimeUnit.MILLISECONDS;
import static java.util.concurrent.TimeUnit.NANOSECONDS;
import static java.util.concurrent.TimeUnit.SECONDS;

import java.util.ArrayList;
import java.util.LinkedHashMap;
import java.util.List;
import java.util.Map;
import java.util.concurrent.Callable;
import java.util.concurrent.CompletableFuture;
import java.util.concurrent.CopyOnWriteArrayList;
import java.util.concurrent.CountDownLatch;
import java.util.concurrent.Delayed;
import java.util.concurrent.ExecutionException;
import java.util.concurrent.Future;
import java.util.concurrent.RunnableScheduledFuture;
import java.util.concurrent.ScheduledFuture;
import java.util.concurrent.ScheduledThreadPoolExecutor;
import java.util.concurrent.ThreadLocalRandom;
import java.util.concurrent.ThreadPoolExecutor;
import java.util.concurrent.TimeUnit;
import java.util.concurrent.TimeoutException;
import java.util.concurrent.atomic.AtomicInteger;
import sched.timers.Leaving;
import sched.timers.TimersThreadPoolExecutor;

/** One program over Java's class and over ours: what it tells has to be the same, but for what is listed as different. */
final class Scenes {
    static final Runnable NOTHING = () -> {};

    interface Scene {
        Object play(ScheduledThreadPoolExecutor pool) throws Exception;
    }

    private static final class Cast {
        final int core;
        final Scene scene;

        Cast(int core, Scene scene) {
            this.core = core;
            this.scene = scene;
        }
    }

    private static final Map<String, Cast> ALL = new LinkedHashMap<>();

    private Scenes() {}

    static void scene(String name, int core, Scene scene) {
        if (ALL.put(name, new Cast(core, scene)) != null) throw new AssertionError(name);
    }

    static ScheduledThreadPoolExecutor pool(boolean ours, int core) {
        return ours ? new TimersThreadPoolExecutor(core) : new ScheduledThreadPoolExecutor(core);
    }

    /** What a scene tells, with what it throws; names that differ by class or by object are left out. */
    static String told(Scene scene, ScheduledThreadPoolExecutor pool) {
        try {
            return String.valueOf(scene.play(pool));
        } catch (Exception thrown) {
            return plain(thrown.toString());
        } finally {
            pool.shutdownNow();
        }
    }

    static String plain(String text) {
        return text.replaceAll("@[0-9a-f]+", "").replaceAll("(sched\\.timers|java\\.util\\.concurrent)\\.[\\w$]*(Scheduled\\w*|TimersThreadPoolExecutor)", "CLASS")
            .replaceAll("\\$ScheduledFutureTask|\\$\\$Lambda[^ \\]]*", "");
    }

    static boolean ends(ScheduledThreadPoolExecutor pool) throws InterruptedException {
        return pool.awaitTermination(30, SECONDS);
    }

    static void eventually(Callable<Boolean> what) throws Exception {
        for (int i = 0; i < 10_000; i++) {
            if (what.call()) return;
            Thread.sleep(1);
        }
        throw new TimeoutException("it did not come");
    }

    static void await(CountDownLatch latch) {
        try {
            if (!latch.await(30, SECONDS)) throw new IllegalStateException("it did not come");
        } catch (InterruptedException interrupted) {
            throw new IllegalStateException("interrupted");
        }
    }

    // ---- the scenes

    static {
        futures();
        cancels();
        queues();
        shutdowns();
        policies();
        threads();
        rejections();
        errors();
        crowds();
    }

    private static void futures() {
        scene("a value", 1, pool -> pool.schedule(() -> 42, 10, MILLISECONDS).get());
        scene("a value that is given", 1, pool -> pool.submit(NOTHING, 7).get() + " " + pool.submit(() -> 8).get() + pool.submit(NOTHING).get());
        scene("the order of dues", 1, pool -> {
            List<Integer> got = new CopyOnWriteArrayList<>();
            for (int i : new int[] {600, 200, 400, 200}) pool.schedule(() -> got.add(i), i, MILLISECONDS);
            pool.shutdown();
            return ends(pool) + " " + got;
        });
        scene("ties", 1, pool -> {
            List<Integer> got = new CopyOnWriteArrayList<>();
            CountDownLatch begin = new CountDownLatch(1);
            pool.execute(() -> await(begin));
            for (int i = 0; i < 100; i++) {
                int number = i;
                pool.execute(() -> got.add(number));
            }
            begin.countDown();
            pool.shutdown();
            return ends(pool) + " " + got;
        });
        scene("negative delays", 1, pool -> pool.schedule(() -> 3, Long.MIN_VALUE, HOURS).get());
        scene("an exception", 1, pool -> pool.schedule(() -> { throw new IllegalStateException("x"); }, 1, MILLISECONDS).get());
        scene("a get that waits too short", 1, pool -> pool.schedule(() -> 1, 1, HOURS).get(1, MILLISECONDS));
        scene("delays", 1, pool -> {
            ScheduledFuture<?> once = pool.schedule(NOTHING, 2, HOURS), rate = pool.scheduleAtFixedRate(NOTHING, 3, 1, HOURS);
            return once.getDelay(TimeUnit.MINUTES) + " " + rate.getDelay(TimeUnit.MINUTES) + " " + Integer.signum(once.compareTo(rate)) + Integer.signum(rate.compareTo(once))
                + once.compareTo(once) + ((RunnableScheduledFuture<?>) once).isPeriodic() + ((RunnableScheduledFuture<?>) rate).isPeriodic();
        });
        scene("long delays", 1, pool -> {
            ScheduledFuture<?> far = pool.schedule(NOTHING, Long.MAX_VALUE, TimeUnit.DAYS);
            pool.schedule(() -> 1, 1, MILLISECONDS).get();
            return far.getDelay(TimeUnit.DAYS) > 50_000;
        });
        scene("a fixed rate", 2, pool -> {
            AtomicInteger runs = new AtomicInteger();
            CountDownLatch five = new CountDownLatch(5);
            ScheduledFuture<?> rate = pool.scheduleAtFixedRate(() -> {
                runs.incrementAndGet();
                five.countDown();
            }, 1, 2, MILLISECONDS);
            await(five);
            boolean yes = rate.cancel(false);
            return yes + " " + rate.isCancelled() + " " + rate.isDone() + " " + rate.cancel(true) + " " + (runs.get() >= 5);
        });
        scene("a late fixed rate makes up for its runs", 1, pool -> {
            AtomicInteger runs = new AtomicInteger();
            CountDownLatch ten = new CountDownLatch(10);
            pool.scheduleAtFixedRate(() -> {
                if (runs.getAndIncrement() == 0) sleep(30);
                ten.countDown();
            }, 0, 2, MILLISECONDS);
            long begin = System.nanoTime();
            await(ten);
            return runs.get() >= 10 && System.nanoTime() - begin >= 18_000_000;
        });
        scene("a periodic task fails", 1, pool -> {
            AtomicInteger runs = new AtomicInteger();
            ScheduledFuture<?> fixed = pool.scheduleWithFixedDelay(() -> {
                if (runs.incrementAndGet() == 3) throw new IllegalArgumentException("third");
            }, 1, 1, MILLISECONDS);
            try {
                return fixed.get();
            } catch (ExecutionException failure) {
                return failure.getCause().getMessage() + runs + fixed.isDone() + fixed.isCancelled() + pool.getQueue().size();
            }
        });
        scene("a task is run by hand", 1, pool -> {
            AtomicInteger runs = new AtomicInteger();
            ScheduledFuture<?> task = pool.schedule(runs::incrementAndGet, 20, MILLISECONDS);
            ((Runnable) task).run();
            String said = task.isDone() + " " + runs + pool.getQueue().size();
            eventually(() -> pool.getCompletedTaskCount() == 1);
            return said + runs + pool.getQueue().size();
        });
        scene("a run by hand goes on as a run of its periodic task is due", 1, pool -> {
            CountDownLatch in = new CountDownLatch(1), out = new CountDownLatch(1), four = new CountDownLatch(4);
            ScheduledFuture<?> rate = pool.scheduleAtFixedRate(() -> {
                in.countDown();
                await(out);
                four.countDown();
            }, 200, 1, MILLISECONDS);
            Thread byHand = new Thread((Runnable) rate);
            byHand.start();
            await(in);
            eventually(() -> pool.getCompletedTaskCount() > 0);
            out.countDown();
            await(four);
            byHand.join();
            return rate.isDone() + " " + rate.cancel(false);
        });
        scene("a run by hand fails as a run of its periodic task is due", 1, pool -> {
            CountDownLatch in = new CountDownLatch(1), out = new CountDownLatch(1);
            ScheduledFuture<?> rate = pool.scheduleWithFixedDelay(() -> {
                in.countDown();
                await(out);
                throw new IllegalStateException("by hand");
            }, 200, 1, MILLISECONDS);
            Thread byHand = new Thread((Runnable) rate);
            byHand.start();
            await(in);
            eventually(() -> pool.getCompletedTaskCount() > 0);
            out.countDown();
            byHand.join();
            eventually(() -> pool.getQueue().size() == 0);
            return rate.isDone() + " " + rate.isCancelled();
        });
        scene("nulls", 1, pool -> {
            StringBuilder said = new StringBuilder();
            List<Callable<?>> calls = List.of(() -> pool.schedule((Runnable) null, 0, SECONDS), () -> pool.schedule((Callable<?>) null, 0, SECONDS),
                () -> pool.schedule(NOTHING, 0, null), () -> pool.scheduleAtFixedRate(null, 0, 1, SECONDS), () -> pool.scheduleAtFixedRate(NOTHING, 0, 1, null),
                () -> pool.scheduleWithFixedDelay(null, 0, 1, SECONDS), () -> pool.scheduleWithFixedDelay(NOTHING, 0, 1, null), () -> pool.submit((Runnable) null),
                () -> pool.submit((Callable<?>) null), () -> pool.invokeAll(null), () -> pool.invokeAny(null), () -> pool.getQueue().contains(null),
                () -> pool.scheduleAtFixedRate(NOTHING, 0, 0, SECONDS), () -> pool.scheduleAtFixedRate(NOTHING, 0, -1, SECONDS), () -> pool.scheduleWithFixedDelay(NOTHING, 0, 0, SECONDS));
            for (Callable<?> call : calls) said.append(thrownBy(call)).append(' ');
            return said + "" + pool.getQueue().size();
        });
    }

    static String thrownBy(Callable<?> call) {
        try {
            return String.valueOf(call.call());
        } catch (Exception thrown) {
            return thrown.getClass().getSimpleName();
        }
    }

    static void sleep(long millis) {
        try {
            Thread.sleep(millis);
        } catch (InterruptedException interrupted) {
            Thread.currentThread().interrupt();
        }
    }

    private static void cancels() {
        scene("a cancel keeps", 1, pool -> {
            ScheduledFuture<?> task = pool.schedule(NOTHING, 1, HOURS);
            return pool.getQueue().size() + " " + task.cancel(false) + " " + pool.getQueue().size() + pool.getQueue().contains(task);
        });
        scene("a cancel removes", 1, pool -> {
            pool.setRemoveOnCancelPolicy(true);
            ScheduledFuture<?> task = pool.schedule(NOTHING, 1, HOURS);
            return pool.getQueue().size() + " " + task.cancel(false) + " " + pool.getQueue().size() + task.cancel(false) + task.isCancelled() + task.isDone();
        });
        scene("a get of a cancelled task", 1, pool -> {
            ScheduledFuture<?> task = pool.schedule(NOTHING, 1, HOURS);
            task.cancel(false);
            return task.get();
        });
        scene("kept tasks leave at their moment", 1, pool -> {
            pool.schedule(NOTHING, 20, MILLISECONDS).cancel(false);
            pool.schedule(NOTHING, 10, MILLISECONDS).cancel(false);
            pool.schedule(NOTHING, 30, MILLISECONDS).get();
            eventually(() -> pool.getCompletedTaskCount() == 3);
            return pool.getQueue().size();
        });
        scene("a cancel of a task that runs", 1, pool -> {
            CountDownLatch in = new CountDownLatch(1), out = new CountDownLatch(1);
            Future<?> task = pool.submit(() -> {
                in.countDown();
                await(out);
            });
            await(in);
            String said = task.cancel(false) + " " + task.isCancelled();
            out.countDown();
            eventually(() -> pool.getCompletedTaskCount() == 1);
            return said + task.isDone() + pool.submit(() -> 4).get();
        });
        scene("a cancel that interrupts", 1, pool -> {
            CountDownLatch in = new CountDownLatch(1), out = new CountDownLatch(1);
            Future<?> task = pool.submit(() -> {
                in.countDown();
                try {
                    Thread.sleep(30_000);
                } catch (InterruptedException interrupted) {
                    out.countDown();
                }
            });
            await(in);
            return task.cancel(true) + " " + out.await(30, SECONDS) + pool.submit(() -> Thread.currentThread().isInterrupted()).get();
        });
        scene("a periodic task cancels itself", 1, pool -> {
            CompletableFuture<ScheduledFuture<?>> self = new CompletableFuture<>();
            AtomicInteger runs = new AtomicInteger();
            self.complete(pool.scheduleAtFixedRate(() -> {
                if (runs.incrementAndGet() == 3) self.join().cancel(false);
            }, 1, 1, MILLISECONDS));
            eventually(() -> self.join().isCancelled());
            Thread.sleep(10);
            return runs + " " + pool.getQueue().size();
        });
        scene("a job that interrupts its thread", 1, pool -> {
            pool.execute(() -> Thread.currentThread().interrupt());
            return pool.submit(() -> Thread.currentThread().isInterrupted()).get();
        });
    }

    private static void queues() {
        scene("purge", 1, pool -> {
            for (int i = 0; i < 10; i++) {
                ScheduledFuture<?> task = pool.schedule(NOTHING, 1 + i, HOURS);
                if (i % 3 == 0) task.cancel(false);
            }
            String said = pool.getQueue().size() + " ";
            pool.purge();
            return said + pool.getQueue().size();
        });
        scene("remove", 1, pool -> {
            ScheduledFuture<?> task = pool.schedule(NOTHING, 1, HOURS), kept = pool.schedule(NOTHING, 1, HOURS);
            kept.cancel(false);
            return pool.remove((Runnable) task) + " " + pool.getQueue().size() + task.isDone() + task.isCancelled() + pool.remove((Runnable) task) + pool.remove((Runnable) kept)
                + pool.getQueue().size() + pool.remove(NOTHING) + pool.remove(null) + task.cancel(false) + pool.getQueue().size();
        });
        scene("remove of another pool's task", 1, pool -> {
            ScheduledThreadPoolExecutor other = pool(pool instanceof TimersThreadPoolExecutor, 1);
            ScheduledFuture<?> task = other.schedule(NOTHING, 1, HOURS);
            pool.schedule(NOTHING, 1, HOURS);
            boolean removed = pool.remove((Runnable) task);
            other.shutdownNow();
            return removed + " " + pool.getQueue().size();
        });
        scene("the queue", 1, pool -> {
            for (int i : new int[] {9, 7, 8}) pool.schedule(NOTHING, i, HOURS);
            int far = 0;
            for (Runnable task : pool.getQueue()) far += ((Delayed) task).getDelay(HOURS) >= 6 ? 1 : 0;
            String said = far + " " + ((Delayed) pool.getQueue().peek()).getDelay(HOURS) + pool.getQueue().poll() + pool.getQueue().remainingCapacity();
            pool.getQueue().removeIf(task -> ((Delayed) task).getDelay(HOURS) < 7);
            return said + pool.getQueue().size() + pool.getQueue().isEmpty() + pool.getQueue().drainTo(new ArrayList<>()) + pool.getQueue().toArray().length;
        });
        scene("a queue that is polled and drained", 1, pool -> {
            CountDownLatch in = new CountDownLatch(1), out = new CountDownLatch(1);
            pool.execute(() -> {
                in.countDown();
                await(out);
            });
            await(in);
            List<Object> tasks = new ArrayList<>();
            for (int i = 0; i < 5; i++) tasks.add(pool.submit(NOTHING));
            List<Object> got = new ArrayList<>();
            String said = tasks.indexOf(pool.getQueue().poll()) + " " + pool.getQueue().drainTo(got, 2) + tasks.indexOf(got.get(0)) + tasks.indexOf(got.get(1)) + " ";
            pool.getQueue().clear();
            out.countDown();
            return said + pool.getQueue().size();
        });
        scene("the queue is one object", 1, pool -> pool.getQueue() == pool.getQueue());
        scene("a queue of many that is drained", 1, pool -> {
            CountDownLatch in = new CountDownLatch(1), out = new CountDownLatch(1);
            pool.execute(() -> {
                in.countDown();
                await(out);
            });
            await(in);
            int many = 100_000;
            List<Object> wanted = new ArrayList<>(many);
            for (int i = 0; i < many; i++) wanted.add(pool.submit(NOTHING));
            ((Future<?>) wanted.get(many / 2)).cancel(false);
            pool.schedule(NOTHING, 1, HOURS);
            List<Object> got = new ArrayList<>(many);
            long begin = System.nanoTime();
            String said = pool.getQueue().drainTo(got) + " " + pool.getQueue().drainTo(got, -1) + got.equals(wanted) + pool.getQueue().size();
            boolean isQuick = System.nanoTime() - begin < SECONDS.toNanos(5);
            out.countDown();
            return said + isQuick;
        });
        scene("a removal ends a pool that is shut", 1, pool -> {
            ScheduledFuture<?> task = pool.schedule(NOTHING, 1, HOURS);
            pool.shutdown();
            return pool.isTerminated() + " " + pool.remove((Runnable) task) + ends(pool);
        });
        scene("a purge ends a pool that is shut", 1, pool -> {
            ScheduledFuture<?> task = pool.schedule(NOTHING, 1, HOURS);
            pool.shutdown();
            task.cancel(false);
            String said = pool.isTerminating() + " " + pool.getQueue().size();
            pool.purge();
            return said + ends(pool);
        });
    }

    private static void shutdowns() {
        scene("shutdownNow interrupts", 1, pool -> {
            CountDownLatch in = new CountDownLatch(1), out = new CountDownLatch(1);
            pool.submit(() -> {
                in.countDown();
                try {
                    Thread.sleep(30_000);
                } catch (InterruptedException interrupted) {
                    out.countDown();
                }
            });
            await(in);
            ScheduledFuture<?> task = pool.schedule(NOTHING, 1, HOURS);
            List<Runnable> left = pool.shutdownNow();
            return left.size() + " " + left.contains(task) + out.await(30, SECONDS) + ends(pool) + pool.isTerminated() + pool.isTerminating() + pool.shutdownNow().size();
        });
        scene("what shutdownNow leaves is not cancelled", 1, pool -> {
            ScheduledFuture<?> once = pool.schedule(NOTHING, 1, HOURS), rate = pool.scheduleAtFixedRate(NOTHING, 1, 1, HOURS);
            pool.shutdownNow();
            String said = once.isDone() + " " + rate.isDone();
            ((Runnable) once).run();
            return said + once.isCancelled() + rate.cancel(false);
        });
        scene("shutdownNow after shutdown", 1, pool -> {
            pool.schedule(NOTHING, 1, HOURS);
            pool.schedule(NOTHING, 1, HOURS).cancel(false);
            pool.shutdown();
            return pool.shutdownNow().size() + " " + ends(pool);
        });
        scene("shutdownNow lists kept tasks", 1, pool -> {
            pool.schedule(NOTHING, 9, HOURS).cancel(false);
            pool.schedule(NOTHING, 9, HOURS);
            return pool.shutdownNow().size();
        });
        scene("a second shutdown drops what is kept", 1, pool -> {
            ScheduledFuture<?> task = pool.schedule(NOTHING, 9, HOURS);
            pool.shutdown();
            String said = task.cancel(false) + " " + pool.getQueue().size();
            pool.shutdown();
            return said + pool.getQueue().size() + ends(pool);
        });
        scene("a shutdown of an empty pool", 3, pool -> {
            pool.shutdown();
            return ends(pool) + " " + pool.isShutdown() + pool.isTerminated() + pool.isTerminating() + pool.getPoolSize();
        });
        scene("a wait for the end that is too short", 1, pool -> {
            pool.schedule(NOTHING, 1, HOURS);
            pool.shutdown();
            return pool.awaitTermination(1, MILLISECONDS) + " " + pool.awaitTermination(0, SECONDS) + pool.isTerminating();
        });
        scene("a job submits, cancels and shuts down", 2, pool -> {
            CompletableFuture<String> said = new CompletableFuture<>();
            pool.schedule(() -> {
                boolean cancelled = pool.schedule(NOTHING, 1, HOURS).cancel(true);
                pool.shutdown();
                said.complete(cancelled + " " + pool.isShutdown());
            }, 1, MILLISECONDS);
            return said.get() + ends(pool) + pool.getCompletedTaskCount();
        });
        scene("a job stops its pool", 1, pool -> {
            CompletableFuture<String> said = new CompletableFuture<>();
            pool.schedule(NOTHING, 1, HOURS);
            pool.execute(() -> said.complete(pool.shutdownNow().size() + " " + Thread.currentThread().isInterrupted()));
            return said.get() + ends(pool);
        });
        scene("counts at the end", 2, pool -> {
            for (int i = 0; i < 5; i++) pool.schedule(NOTHING, i, MILLISECONDS);
            pool.shutdown();
            return ends(pool) + plain(pool.toString()) + pool.getTaskCount() + pool.getActiveCount() + pool.getLargestPoolSize();
        });
    }

    private static void policies() {
        scene("defaults", 4, pool -> pool.getContinueExistingPeriodicTasksAfterShutdownPolicy() + " " + pool.getExecuteExistingDelayedTasksAfterShutdownPolicy()
            + pool.getRemoveOnCancelPolicy() + pool.getCorePoolSize() + pool.getMaximumPoolSize() + pool.getKeepAliveTime(MILLISECONDS) + pool.allowsCoreThreadTimeOut()
            + plain(pool.toString()));
        scene("a shutdown drops periodic tasks", 1, pool -> {
            ScheduledFuture<?> rate = pool.scheduleAtFixedRate(NOTHING, 1, 1, HOURS), once = pool.schedule(() -> 7, 50, MILLISECONDS);
            pool.shutdown();
            return rate.isCancelled() + " " + once.get() + ends(pool);
        });
        scene("a shutdown drops delayed tasks by the policy", 1, pool -> {
            pool.setExecuteExistingDelayedTasksAfterShutdownPolicy(false);
            ScheduledFuture<?> once = pool.schedule(() -> 7, 50, HOURS);
            pool.shutdown();
            return once.isCancelled() + " " + ends(pool);
        });
        scene("what is due runs also where delayed tasks do not", 1, pool -> {
            pool.setExecuteExistingDelayedTasksAfterShutdownPolicy(false);
            CountDownLatch in = new CountDownLatch(1), out = new CountDownLatch(1);
            pool.execute(() -> {
                in.countDown();
                await(out);
            });
            Future<?> due = pool.submit(() -> 5);
            await(in);
            pool.shutdown();
            out.countDown();
            return due.get() + " " + ends(pool);
        });
        scene("a policy after the shutdown", 1, pool -> {
            ScheduledFuture<?> once = pool.schedule(() -> 7, 50, HOURS);
            pool.shutdown();
            pool.setExecuteExistingDelayedTasksAfterShutdownPolicy(false);
            return once.isCancelled() + " " + ends(pool);
        });
        scene("periodic tasks that go on, until the policy changes", 1, pool -> {
            pool.setContinueExistingPeriodicTasksAfterShutdownPolicy(true);
            CountDownLatch five = new CountDownLatch(5);
            ScheduledFuture<?> rate = pool.scheduleAtFixedRate(five::countDown, 1, 1, MILLISECONDS);
            pool.shutdown();
            await(five);
            String said = rate.isDone() + " " + pool.isTerminated();
            pool.setContinueExistingPeriodicTasksAfterShutdownPolicy(false);
            return said + ends(pool) + rate.isCancelled();
        });
        scene("a periodic task that runs as the pool is shut", 1, pool -> {
            CountDownLatch in = new CountDownLatch(1), out = new CountDownLatch(1);
            ScheduledFuture<?> rate = pool.scheduleAtFixedRate(() -> {
                in.countDown();
                await(out);
            }, 0, 1, MILLISECONDS);
            await(in);
            pool.shutdown();
            out.countDown();
            return ends(pool) + " " + rate.isCancelled();
        });
        scene("policies of a pool that has ended", 1, pool -> {
            pool.shutdown();
            ends(pool);
            pool.setExecuteExistingDelayedTasksAfterShutdownPolicy(false);
            pool.setContinueExistingPeriodicTasksAfterShutdownPolicy(true);
            pool.setRemoveOnCancelPolicy(true);
            return pool.getExecuteExistingDelayedTasksAfterShutdownPolicy() + " " + pool.getContinueExistingPeriodicTasksAfterShutdownPolicy() + pool.getRemoveOnCancelPolicy();
        });
    }

    private static void threads() {
        scene("threads grow with submissions", 3, pool -> {
            StringBuilder said = new StringBuilder();
            for (int i = 0; i < 5; i++) {
                pool.schedule(NOTHING, 1, HOURS);
                said.append(pool.getPoolSize());
            }
            pool.setCorePoolSize(1);
            eventually(() -> pool.getPoolSize() == 1);
            return said.append(' ').append(pool.getPoolSize()).append(pool.getLargestPoolSize()).append(pool.getCorePoolSize()).append(pool.getTaskCount());
        });
        scene("a larger core starts threads for what is queued", 1, pool -> {
            for (int i = 0; i < 3; i++) pool.schedule(NOTHING, 1, HOURS);
            pool.setCorePoolSize(5);
            return pool.getPoolSize() + " " + pool.getCorePoolSize();
        });
        scene("threads that are started beforehand", 3, pool -> pool.prestartCoreThread() + " " + pool.getPoolSize() + pool.prestartAllCoreThreads() + pool.getPoolSize()
            + pool.prestartCoreThread() + pool.prestartAllCoreThreads());
        scene("no core", 0, pool -> {
            String said = pool.schedule(() -> 3, 5, MILLISECONDS).get() + " " + pool.prestartCoreThread();
            eventually(() -> pool.getPoolSize() == 0);
            pool.schedule(NOTHING, 1, HOURS);
            Thread.sleep(30);
            return said + pool.getPoolSize() + pool.submit(() -> 4).get();
        });
        scene("no core, and an empty queue", 0, pool -> {
            pool.setRemoveOnCancelPolicy(true);
            ScheduledFuture<?> task = pool.schedule(NOTHING, 1, HOURS);
            Thread.sleep(20);
            String said = pool.getPoolSize() + " ";
            task.cancel(false);
            eventually(() -> pool.getPoolSize() == 0);
            return said + pool.getPoolSize();
        });
        scene("core threads that time out", 2, pool -> {
            pool.setKeepAliveTime(10, MILLISECONDS);
            pool.allowCoreThreadTimeOut(true);
            pool.submit(NOTHING).get();
            pool.submit(NOTHING).get();
            eventually(() -> pool.getPoolSize() == 0);
            return pool.allowsCoreThreadTimeOut() + " " + pool.getPoolSize() + pool.submit(() -> 9).get();
        });
        scene("core threads that may time out later", 3, pool -> {
            pool.prestartAllCoreThreads();
            pool.setKeepAliveTime(1, HOURS);
            pool.allowCoreThreadTimeOut(true);
            Thread.sleep(5);
            String said = pool.getPoolSize() + " ";
            pool.setKeepAliveTime(5, MILLISECONDS);
            eventually(() -> pool.getPoolSize() == 0);
            return said + pool.getPoolSize();
        });
        scene("sizes that are refused", 2, pool -> thrownBy(() -> {
            pool.setCorePoolSize(-1);
            return "";
        }) + thrownBy(() -> {
            pool.setMaximumPoolSize(1);
            return "";
        }) + thrownBy(() -> {
            pool.setKeepAliveTime(-1, SECONDS);
            return "";
        }) + thrownBy(() -> {
            pool.setKeepAliveTime(0, SECONDS);
            pool.allowCoreThreadTimeOut(true);
            return "";
        }) + pool.getCorePoolSize());
        scene("jobs that wait for each other", 64, pool -> {
            CountDownLatch all = new CountDownLatch(64);
            AtomicInteger through = new AtomicInteger();
            for (int i = 0; i < 64; i++) pool.execute(() -> {
                all.countDown();
                await(all);
                through.incrementAndGet();
            });
            pool.shutdown();
            return ends(pool) + " " + through + pool.getLargestPoolSize();
        });
        scene("invokeAll", 3, pool -> {
            int sum = 0;
            for (Future<Integer> each : pool.invokeAll(List.<Callable<Integer>>of(() -> 1, () -> 2, () -> 3))) sum += each.get();
            return sum;
        });
        scene("invokeAll that is too slow", 1, pool -> {
            List<Future<Integer>> all = pool.invokeAll(List.<Callable<Integer>>of(() -> 1, () -> {
                Thread.sleep(30_000);
                return 2;
            }, () -> 3), 50, MILLISECONDS);
            return all.get(0).isCancelled() + " " + all.get(1).isCancelled() + all.get(2).isCancelled();
        });
        scene("invokeAny", 3, pool -> pool.invokeAny(List.<Callable<Integer>>of(() -> 5, () -> 5)));
    }

    private static void rejections() {
        scene("a rejection", 1, pool -> {
            pool.shutdown();
            return pool.schedule(NOTHING, 1, MILLISECONDS);
        });
        scene("a rejection of a pool that waits", 1, pool -> {
            pool.schedule(NOTHING, 1, HOURS);
            pool.shutdown();
            return thrownBy(() -> pool.submit(NOTHING)) + pool.getQueue().size();
        });
        for (Map.Entry<String, java.util.function.Supplier<java.util.concurrent.RejectedExecutionHandler>> each : Map.<String, java.util.function.Supplier<java.util.concurrent.RejectedExecutionHandler>>of(
            "discards", ThreadPoolExecutor.DiscardPolicy::new, "discards the oldest", ThreadPoolExecutor.DiscardOldestPolicy::new, "runs", ThreadPoolExecutor.CallerRunsPolicy::new).entrySet())
            scene("a handler that " + each.getKey(), 1, pool -> {
                pool.setRejectedExecutionHandler(each.getValue().get());
                pool.schedule(NOTHING, 1, HOURS);
                pool.shutdown();
                ScheduledFuture<?> rejected = pool.schedule(NOTHING, 1, MILLISECONDS);
                return rejected.isDone() + " " + rejected.isCancelled() + pool.getQueue().size();
            });
        scene("a handler is told the task and the pool", 1, pool -> {
            List<Object> told = new ArrayList<>();
            pool.setRejectedExecutionHandler((task, from) -> told.addAll(List.of(task, from)));
            pool.shutdown();
            ScheduledFuture<?> rejected = pool.schedule(NOTHING, 1, MILLISECONDS);
            return (told.get(0) == rejected) + " " + (told.get(1) == pool);
        });
    }

    private static void errors() {
        scene("a job throws an Error", 1, pool -> {
            Future<?> task = pool.submit(() -> { throw new LinkageError("y"); });
            String said = thrownBy(task::get);
            return said + pool.submit(() -> 8).get() + pool.getPoolSize();
        });
        scene("a factory that gives no thread, and then one", 1, pool -> {
            java.util.concurrent.ThreadFactory good = pool.getThreadFactory();
            pool.setThreadFactory(job -> null);
            Future<Integer> task = pool.submit(() -> 6);
            String said = pool.getPoolSize() + " " + pool.getQueue().size() + pool.prestartCoreThread();
            pool.setThreadFactory(good);
            return said + pool.prestartCoreThread() + task.get();
        });
        scene("a factory that throws", 1, pool -> {
            java.util.concurrent.ThreadFactory good = pool.getThreadFactory();
            pool.setThreadFactory(job -> { throw new IllegalStateException("no thread"); });
            String said = thrownBy(() -> pool.submit(() -> 6)) + pool.getPoolSize() + pool.getQueue().size();
            pool.setThreadFactory(good);
            int value = pool.submit(() -> 6).get();
            eventually(() -> pool.getCompletedTaskCount() == 2);
            return said + value;
        });
        scene("a factory whose thread is started", 1, pool -> {
            pool.setThreadFactory(job -> {
                Thread thread = new Thread(NOTHING);
                thread.start();
                return thread;
            });
            return thrownBy(() -> pool.submit(() -> 6)) + pool.getPoolSize();
        });
        scene("a thread that cannot be started", 1, pool -> {
            pool.setThreadFactory(job -> new Thread(job) {
                @Override
                public synchronized void start() {
                    throw new OutOfMemoryError("no thread");
                }
            });
            String said;
            try {
                said = "" + pool.submit(() -> 6);
            } catch (OutOfMemoryError error) {
                said = error.getMessage();
            }
            pool.setThreadFactory(Thread::new);
            return said + pool.getPoolSize() + pool.getQueue().size() + pool.submit(() -> 7).get();
        });
    }

    private static void crowds() {
        scene("a storm", 4, pool -> {
            pool.setRemoveOnCancelPolicy(true);
            AtomicInteger ran = new AtomicInteger(), cancelled = new AtomicInteger();
            Thread[] threads = new Thread[4];
            for (int i = 0; i < threads.length; i++) {
                threads[i] = new Thread(() -> {
                    ThreadLocalRandom random = ThreadLocalRandom.current();
                    for (int k = 0; k < 5000; k++) {
                        ScheduledFuture<?> task = pool.schedule(ran::incrementAndGet, random.nextInt(300), TimeUnit.MICROSECONDS);
                        if (random.nextBoolean() && task.cancel(false)) cancelled.incrementAndGet();
                    }
                });
                threads[i].start();
            }
            for (Thread thread : threads) thread.join();
            pool.shutdown();
            return ends(pool) + " " + (ran.get() + cancelled.get()) + " " + pool.getQueue().size();
        });
        scene("many periodic tasks", 4, pool -> {
            List<ScheduledFuture<?>> all = new ArrayList<>();
            CountDownLatch runs = new CountDownLatch(2000);
            for (int i = 0; i < 50; i++)
                all.add(i % 2 == 0 ? pool.scheduleAtFixedRate(runs::countDown, i, 500, TimeUnit.MICROSECONDS) : pool.scheduleWithFixedDelay(runs::countDown, i, 500, TimeUnit.MICROSECONDS));
            await(runs);
            boolean cancelled = true;
            for (ScheduledFuture<?> each : all) cancelled &= each.cancel(false);
            pool.shutdown();
            return cancelled + " " + ends(pool) + pool.getQueue().size();
        });
        scene("an hour's wait is cut short by a nearer task", 1, pool -> {
            pool.schedule(NOTHING, 1, HOURS);
            Thread.sleep(5);
            return pool.schedule(() -> 1, 1, NANOSECONDS).get(30, SECONDS);
        });
    }

    static void run() {
        ALL.forEach((name, cast) -> {
            String ours = told(cast.scene, pool(true, cast.core)), theirs = told(cast.scene, pool(false, cast.core));
            Runner.told("scene, " + name, ours.equals(theirs), "ours " + ours + ", Java's " + theirs);
        });
        Runner.same("workers that are to go leave their numbers", TimersThreadPoolExecutor.MOST_WORKERS, Leaving::startedMeanwhile);
    }
}
