package sched.tests;

import static java.util.concurrent.TimeUnit.HOURS;
import static java.util.concurrent.TimeUnit.MILLISECONDS;

import java.util.concurrent.CountDownLatch;
import java.util.concurrent.Future;
import java.util.concurrent.RunnableScheduledFuture;
import java.util.concurrent.ScheduledFuture;
import java.util.concurrent.ScheduledThreadPoolExecutor;
import java.util.concurrent.ThreadFactory;
import java.util.concurrent.TimeUnit;
import java.util.concurrent.atomic.AtomicInteger;
import java.util.function.Supplier;

/** What a subclass of either class is called for, and what happens where its hooks throw. */
final class HookScenes {
    private HookScenes() {}

    interface Scene {
        Object play(ScheduledThreadPoolExecutor pool, Hooks hooks) throws Exception;
    }

    private static String told(boolean ours, int core, Supplier<Hooks> made, Scene scene) {
        Hooks hooks = made.get();
        ScheduledThreadPoolExecutor pool = hooks.pool(ours, core);
        return Scenes.told(p -> scene.play(p, hooks) + " " + hooks.seen, pool);
    }

    private static void scene(String name, int core, Supplier<Hooks> hooks, Scene scene) {
        String ours = told(true, core, hooks, scene), theirs = told(false, core, hooks, scene);
        Runner.told("hooks, " + name, ours.equals(theirs), "ours " + ours + ", Java's " + theirs);
    }

    private static Object ended(ScheduledThreadPoolExecutor pool) throws InterruptedException {
        pool.shutdown();
        return Scenes.ends(pool);
    }

    static void run() {
        calls();
        throwing();
        decorations();
    }

    private static void calls() {
        scene("all, around a run", 1, Told::new, (pool, hooks) -> {
            pool.schedule(() -> hooks.seen.add("run"), 5, MILLISECONDS).get();
            return ended(pool);
        });
        scene("all, around runs that fail", 1, Told::new, (pool, hooks) -> {
            pool.execute(() -> { throw new IllegalStateException("x"); });
            pool.execute(() -> { throw new LinkageError("y"); });
            return ended(pool);
        });
        scene("all, around a task that was cancelled and kept", 1, Told::new, (pool, hooks) -> {
            pool.schedule(Scenes.NOTHING, 10, MILLISECONDS).cancel(false);
            Scenes.eventually(() -> pool.getCompletedTaskCount() == 1);
            return ended(pool);
        });
        scene("what afterExecute finds", 1, () -> new Hooks() {
            @Override
            void after(Runnable task, Throwable thrown) {
                seen.add(pool.getQueue().size() + " " + pool.getActiveCount() + ((Future<?>) task).isDone() + pool.getQueue().contains(task));
            }
        }, (pool, hooks) -> {
            ScheduledFuture<?> rate = pool.scheduleAtFixedRate(Scenes.NOTHING, 0, 1, HOURS);
            Scenes.eventually(() -> pool.getCompletedTaskCount() == 1);
            pool.submit(Scenes.NOTHING).get();
            Scenes.eventually(() -> pool.getCompletedTaskCount() == 2);
            rate.cancel(false);
            return ended(pool);
        });
        scene("a periodic task runs again while afterExecute goes on", 2, () -> new Hooks() {
            final CountDownLatch second = new CountDownLatch(2);

            @Override
            void before(Thread thread, Runnable task) {
                second.countDown();
            }

            @Override
            void after(Runnable task, Throwable thrown) {
                Scenes.await(second);
                seen.add("after");
                pool.shutdown();
            }
        }, (pool, hooks) -> {
            pool.prestartAllCoreThreads();
            pool.scheduleAtFixedRate(Scenes.NOTHING, 0, 1, MILLISECONDS);
            return Scenes.ends(pool) + " " + hooks.seen.contains("after") + (hooks.seen.removeIf(word -> true));
        });
        scene("beforeExecute in the thread of the factory", 1, () -> new Hooks() {
            @Override
            ThreadFactory factory() {
                return job -> new Thread(job, "mine");
            }

            @Override
            void before(Thread thread, Runnable task) {
                seen.add(thread.getName() + (thread == Thread.currentThread()));
            }
        }, (pool, hooks) -> pool.submit(() -> Thread.currentThread().getName()).get());
    }

    /** Tells of each call. */
    private static class Told extends Hooks {
        @Override
        void before(Thread thread, Runnable task) {
            seen.add("before " + ((Future<?>) task).isCancelled());
        }

        @Override
        void after(Runnable task, Throwable thrown) {
            seen.add("after " + thrown + ((Future<?>) task).isDone());
        }

        @Override
        void terminated() {
            seen.add("terminated " + pool.isTerminated() + pool.isTerminating());
        }
    }

    /** A factory whose threads tell nothing of what ends them. */
    private static class Quiet extends Hooks {
        @Override
        ThreadFactory factory() {
            return job -> {
                Thread thread = new Thread(job);
                thread.setUncaughtExceptionHandler((dead, thrown) -> seen.add("ended by " + thrown.getMessage()));
                return thread;
            };
        }
    }

    private static void throwing() {
        scene("beforeExecute throws", 1, () -> new Quiet() {
            @Override
            void before(Thread thread, Runnable task) {
                if (seen.isEmpty()) throw new IllegalStateException("before");
            }
        }, (pool, hooks) -> {
            Future<?> lost = pool.submit(() -> 1);
            Scenes.eventually(() -> !hooks.seen.isEmpty());
            Object value = pool.submit(() -> 2).get();
            Scenes.eventually(() -> pool.getCompletedTaskCount() == 2);
            return value + " " + lost.isDone() + pool.getPoolSize() + lost.cancel(true);
        });
        scene("beforeExecute of a periodic task throws an Error", 1, () -> new Quiet() {
            @Override
            void before(Thread thread, Runnable task) {
                if (seen.isEmpty()) throw new LinkageError("before");
            }
        }, (pool, hooks) -> {
            ScheduledFuture<?> lost = pool.scheduleAtFixedRate(Scenes.NOTHING, 0, 1, MILLISECONDS);
            Scenes.eventually(() -> !hooks.seen.isEmpty());
            return pool.submit(() -> 2).get() + " " + lost.isDone() + pool.getQueue().size() + ended(pool);
        });
        scene("afterExecute throws", 1, () -> new Quiet() {
            @Override
            void after(Runnable task, Throwable thrown) {
                if (seen.isEmpty()) throw new IllegalStateException("after");
            }
        }, (pool, hooks) -> {
            Object value = pool.submit(() -> 1).get();
            Scenes.eventually(() -> !hooks.seen.isEmpty());
            return value + " " + pool.submit(() -> 2).get() + pool.getPoolSize();
        });
        scene("afterExecute of a periodic task throws", 1, () -> new Quiet() {
            final AtomicInteger calls = new AtomicInteger();

            @Override
            void after(Runnable task, Throwable thrown) {
                if (calls.incrementAndGet() == 1) throw new IllegalStateException("after");
            }
        }, (pool, hooks) -> {
            CountDownLatch three = new CountDownLatch(3);
            ScheduledFuture<?> rate = pool.scheduleAtFixedRate(three::countDown, 0, 1, MILLISECONDS);
            Scenes.await(three);
            Scenes.eventually(() -> !hooks.seen.isEmpty());
            return rate.isDone() + " " + ended(pool);
        });
        scene("terminated throws", 1, () -> new Quiet() {
            @Override
            void terminated() {
                throw new IllegalStateException("terminated");
            }
        }, (pool, hooks) -> {
            pool.submit(Scenes.NOTHING).get();
            pool.shutdown();
            boolean ends = Scenes.ends(pool);
            Scenes.eventually(() -> !hooks.seen.isEmpty());
            return ends + " " + pool.isTerminated();
        });
        scene("terminated throws, of a pool without threads", 1, () -> new Hooks() {
            @Override
            void terminated() {
                throw new IllegalStateException("terminated");
            }
        }, (pool, hooks) -> {
            String thrown = Scenes.thrownBy(() -> {
                pool.shutdown();
                return "";
            });
            return thrown + Scenes.ends(pool) + pool.isTerminated();
        });
        scene("a cancel throws in a shutdown", 1, () -> new Hooks() {
            @Override
            <V> RunnableScheduledFuture<V> decorate(RunnableScheduledFuture<V> task) {
                return new Decorated<>(task) {
                    @Override
                    public boolean cancel(boolean mayInterruptIfRunning) {
                        super.cancel(mayInterruptIfRunning);
                        throw new IllegalStateException("cancel");
                    }
                };
            }
        }, (pool, hooks) -> {
            ScheduledFuture<?> rate = pool.scheduleAtFixedRate(Scenes.NOTHING, 1, 1, HOURS);
            String thrown = Scenes.thrownBy(() -> {
                pool.shutdown();
                return "";
            });
            pool.shutdown();
            return thrown + rate.isCancelled() + Scenes.ends(pool);
        });
    }

    private static void decorations() {
        Supplier<Hooks> decorating = () -> new Hooks() {
            @Override
            <V> RunnableScheduledFuture<V> decorate(RunnableScheduledFuture<V> task) {
                seen.add("decorated " + task.isPeriodic() + task.getDelay(TimeUnit.MINUTES));
                return new Decorated<>(task);
            }

            @Override
            void before(Thread thread, Runnable task) {
                seen.add("before " + task.getClass().getSimpleName());
            }
        };
        scene("a decorated task", 1, decorating, (pool, hooks) -> {
            ScheduledFuture<?> once = pool.schedule(() -> 4, 1, MILLISECONDS);
            return once.getClass().getSimpleName() + once.get() + ended(pool);
        });
        scene("a decorated task in the queue", 1, decorating, (pool, hooks) -> {
            ScheduledFuture<?> far = pool.schedule(() -> 4, 90, TimeUnit.MINUTES);
            boolean stands = pool.getQueue().contains(far) && pool.getQueue().peek() == far;
            boolean within = pool.getQueue().contains(((Decorated<?>) far).within) || pool.remove(((Decorated<?>) far).within);
            return stands + " " + within + pool.remove((Runnable) far) + pool.getQueue().size();
        });
        scene("a decorated periodic task", 1, decorating, (pool, hooks) -> {
            CountDownLatch three = new CountDownLatch(3);
            ScheduledFuture<?> rate = pool.scheduleAtFixedRate(three::countDown, 0, 1, MILLISECONDS);
            Scenes.await(three);
            rate.cancel(false);
            hooks.seen.removeIf(word -> word.startsWith("before"));
            return rate.isCancelled() + " " + ended(pool);
        });
        scene("a decorated task that a shutdown drops, and one that stays", 1, decorating, (pool, hooks) -> {
            ScheduledFuture<?> rate = pool.scheduleAtFixedRate(Scenes.NOTHING, 1, 1, HOURS), once = pool.schedule(Scenes.NOTHING, 1, HOURS);
            pool.shutdown();
            return rate.isCancelled() + " " + once.isCancelled() + pool.shutdownNow().contains(once);
        });
        scene("a rejected decorated task", 1, decorating, (pool, hooks) -> {
            pool.setRejectedExecutionHandler((task, from) -> hooks.seen.add(task.getClass().getSimpleName()));
            pool.shutdown();
            return pool.submit(Scenes.NOTHING).getClass().getSimpleName();
        });
        scene("a decoration that throws", 1, () -> new Hooks() {
            @Override
            <V> RunnableScheduledFuture<V> decorate(RunnableScheduledFuture<V> task) {
                throw new IllegalStateException("decorate");
            }
        }, (pool, hooks) -> Scenes.thrownBy(() -> pool.submit(Scenes.NOTHING)) + pool.getQueue().size() + pool.getPoolSize());
        scene("a decoration that cancels", 1, () -> new Hooks() {
            @Override
            <V> RunnableScheduledFuture<V> decorate(RunnableScheduledFuture<V> task) {
                task.cancel(false);
                return task;
            }
        }, (pool, hooks) -> {
            Future<?> task = pool.submit(() -> hooks.seen.add("run"));
            Scenes.eventually(() -> pool.getCompletedTaskCount() == 1);
            return task.isCancelled() + " " + pool.getQueue().size() + ended(pool);
        });
        for (boolean removes : new boolean[] {true, false})
            scene("a decoration that cancels, and a shutdown, " + removes, 1, () -> new Hooks() {
                @Override
                <V> RunnableScheduledFuture<V> decorate(RunnableScheduledFuture<V> task) {
                    task.cancel(false);
                    return task;
                }
            }, (pool, hooks) -> {
                pool.setRemoveOnCancelPolicy(removes);
                pool.schedule(Scenes.NOTHING, 1, HOURS);
                return pool.getQueue().size() + " " + ended(pool) + pool.getQueue().size();
            });
        scene("a factory without memory", 1, () -> new Hooks() {
            @Override
            ThreadFactory factory() {
                return job -> {
                    if (seen.isEmpty()) throw new OutOfMemoryError("no thread");
                    return new Thread(job);
                };
            }
        }, (pool, hooks) -> {
            try {
                pool.submit(() -> hooks.seen.add("run"));
            } catch (OutOfMemoryError refused) {
                hooks.seen.add(refused.getMessage() + pool.getQueue().size() + pool.getPoolSize());
            }
            return pool.submit(() -> 5).get() + " " + ended(pool);
        });
        scene("a decorated task that does not run", 1, () -> new Hooks() {
            @Override
            <V> RunnableScheduledFuture<V> decorate(RunnableScheduledFuture<V> task) {
                return new Decorated<>(task) {
                    @Override
                    public void run() {}
                };
            }
        }, (pool, hooks) -> {
            ScheduledFuture<?> rate = pool.scheduleAtFixedRate(Scenes.NOTHING, 0, 1, MILLISECONDS);
            Scenes.eventually(() -> pool.getCompletedTaskCount() == 1);
            return rate.isDone() + " " + pool.getQueue().size() + rate.cancel(false) + ended(pool);
        });
        scene("execute by way of schedule", 1, () -> new Hooks(), (pool, hooks) -> {
            pool.execute(Scenes.NOTHING);
            Scenes.eventually(() -> pool.getCompletedTaskCount() == 1);
            return pool.getTaskCount();
        });
    }
}
