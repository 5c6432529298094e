package sched.tests;

import java.util.List;
import java.util.concurrent.Callable;
import java.util.concurrent.CopyOnWriteArrayList;
import java.util.concurrent.Executors;
import java.util.concurrent.RejectedExecutionHandler;
import java.util.concurrent.RunnableScheduledFuture;
import java.util.concurrent.ScheduledThreadPoolExecutor;
import java.util.concurrent.ThreadFactory;
import java.util.concurrent.ThreadPoolExecutor;
import sched.timers.TimersThreadPoolExecutor;

/** What a pool of either class calls of a subclass: a test overrides some of it. */
class Hooks {
    final List<String> seen = new CopyOnWriteArrayList<>();
    /** The pool that has them. */
    ScheduledThreadPoolExecutor pool;

    void before(Thread thread, Runnable task) {}

    void after(Runnable task, Throwable thrown) {}

    void terminated() {}

    <V> RunnableScheduledFuture<V> decorate(RunnableScheduledFuture<V> task) {
        return task;
    }

    ThreadFactory factory() {
        return Executors.defaultThreadFactory();
    }

    RejectedExecutionHandler handler() {
        return new ThreadPoolExecutor.AbortPolicy();
    }

    ScheduledThreadPoolExecutor pool(boolean ours, int core) {
        pool = ours ? new Ours(core, this) : new Javas(core, this);
        return pool;
    }

    private static final class Ours extends TimersThreadPoolExecutor {
        private final Hooks hooks;

        Ours(int core, Hooks hooks) {
            super(core, hooks.factory(), hooks.handler());
            this.hooks = hooks;
        }

        @Override
        protected void beforeExecute(Thread thread, Runnable task) {
            hooks.before(thread, task);
        }

        @Override
        protected void afterExecute(Runnable task, Throwable thrown) {
            hooks.after(task, thrown);
        }

        @Override
        protected void terminated() {
            hooks.terminated();
        }

        @Override
        protected <V> RunnableScheduledFuture<V> decorateTask(Runnable job, RunnableScheduledFuture<V> task) {
            return hooks.decorate(task);
        }

        @Override
        protected <V> RunnableScheduledFuture<V> decorateTask(Callable<V> job, RunnableScheduledFuture<V> task) {
            return hooks.decorate(task);
        }
    }

    private static final class Javas extends ScheduledThreadPoolExecutor {
        private final Hooks hooks;

        Javas(int core, Hooks hooks) {
            super(core, hooks.factory(), hooks.handler());
            this.hooks = hooks;
        }

        @Override
        protected void beforeExecute(Thread thread, Runnable task) {
            hooks.before(thread, task);
        }

        @Override
        protected void afterExecute(Runnable task, Throwable thrown) {
            hooks.after(task, thrown);
        }

        @Override
        protected void terminated() {
            hooks.terminated();
        }

        @Override
        protected <V> RunnableScheduledFuture<V> decorateTask(Runnable job, RunnableScheduledFuture<V> task) {
            return hooks.decorate(task);
        }

        @Override
        protected <V> RunnableScheduledFuture<V> decorateTask(Callable<V> job, RunnableScheduledFuture<V> task) {
            return hooks.decorate(task);
        }
    }
}
