package sched.tests;

import static java.util.concurrent.TimeUnit.HOURS;
import static java.util.concurrent.TimeUnit.MILLISECONDS;
import static java.util.concurrent.TimeUnit.SECONDS;

import java.io.IOException;
import java.nio.file.Files;
import java.nio.file.Path;
import java.util.ArrayList;
import java.util.List;
import java.util.concurrent.ScheduledFuture;
import java.util.concurrent.ThreadPoolExecutor;
import sched.timers.TimersThreadPoolExecutor;

/** What a pool records, which the program `sched` checks where the property sched.program names it. */
final class Traces {
    private static final String PROGRAM = System.getProperty("sched.program");
    /** How many workers a trace may have. */
    private static final int MOST_TRACED = 64;

    private Traces() {}

    static void run() throws Exception {
        Path folder = Files.createTempDirectory("traces");
        Path trace = folder.resolve("trace.txt"), plan = folder.resolve("plan.toml");
        Runner.same("records, the lines of a small pool", SMALL, Traces::small);
        Runner.holds("records, two files, of all calls", () -> all(trace, plan));
        checked("of all calls", trace, plan);
        Runner.same("records, a short stress", null, () -> Stress.shortOne(8_000, pool -> record(pool, trace, plan)));
        checked("of a short stress", trace, plan);
        Runner.holds("records, a front of a trace", () -> front(trace, plan));
        checked("of a pool that goes on", trace, plan);
        Runner.holds("records, a consumer that throws", Traces::throwing);
        Runner.holds("records, a consumer that calls the pool", Traces::calling);
        Runner.holds("records, too late", Traces::late);
        Runner.holds("records, as many threads as a trace may have", Traces::crowded);
        Files.delete(trace);
        Files.delete(plan);
        Files.delete(folder);
        if (PROGRAM == null) Runner.say("no program `sched`: what pools recorded was not checked");
    }

    private static void record(TimersThreadPoolExecutor pool, Path trace, Path plan) {
        try {
            pool.recordTo(trace, plan);
        } catch (IOException failure) {
            throw new IllegalStateException(failure);
        }
    }

    private static void checked(String name, Path trace, Path plan) {
        if (PROGRAM == null) return;
        Runner.same("sched check, " + name, "conforms\n", () -> {
            Process process = new ProcessBuilder(PROGRAM, "check", plan.toString(), trace.toString(), "--workers", "" + MOST_TRACED).redirectErrorStream(true).start();
            return new String(process.getInputStream().readAllBytes());
        });
    }

    /** Numbers of moments are left out. */
    private static final String SMALL = "policy remove true|submit 0 schedule due|outside 0 yes|submit 1 rate due|submit 2 schedule due|shutdown|end 1|refuse 3 rejected|shutdown again|shutdown now|end 2|ask queue 0 running 0 shutdown yes terminated yes";

    private static String small() throws Exception {
        List<String> lines = new ArrayList<>(), plan = new ArrayList<>();
        TimersThreadPoolExecutor pool = new TimersThreadPoolExecutor(1, job -> null, new ThreadPoolExecutor.DiscardPolicy());
        pool.recordTo(lines::add, plan::add);
        pool.schedule(Scenes.NOTHING, 1, HOURS).cancel(false);
        ScheduledFuture<?> rate = pool.scheduleAtFixedRate(Scenes.NOTHING, 1, 1, HOURS);
        pool.schedule(Scenes.NOTHING, 1, HOURS);
        pool.shutdown();
        pool.schedule(Scenes.NOTHING, 1, HOURS);
        pool.shutdown();
        pool.shutdownNow();
        if (!rate.isCancelled() || !pool.awaitTermination(30, SECONDS)) return "it does not end";
        if (plan.stream().filter(line -> line.startsWith("op = ")).count() != 9) return String.join("\n", plan);
        StringBuilder said = new StringBuilder();
        for (String line : lines) said.append('|').append(line.replaceFirst("^\\d+ ", "").replaceFirst(" due \\d+$", " due"));
        return said.substring(1);
    }

    private static boolean all(Path trace, Path plan) throws Exception {
        TimersThreadPoolExecutor pool = new TimersThreadPoolExecutor(2);
        pool.setContinueExistingPeriodicTasksAfterShutdownPolicy(true);
        pool.recordTo(trace, plan);
        List<ScheduledFuture<?>> tasks = new ArrayList<>();
        for (int i = 0; i < 300; i++) tasks.add(pool.schedule(Scenes.NOTHING, i % 5, MILLISECONDS));
        tasks.add(pool.scheduleAtFixedRate(Scenes.NOTHING, 1, 2, MILLISECONDS));
        tasks.add(pool.scheduleWithFixedDelay(Scenes.NOTHING, 1, 2, MILLISECONDS));
        tasks.add(pool.submit(() -> { throw new IllegalStateException("x"); }) instanceof ScheduledFuture ? tasks.get(0) : null);
        for (int i = 0; i < 300; i += 3) tasks.get(i).cancel(true);
        pool.schedule(Scenes.NOTHING, 5, HOURS);
        Thread.sleep(20);
        pool.setExecuteExistingDelayedTasksAfterShutdownPolicy(false);
        pool.shutdown();
        Thread.sleep(10);
        pool.setContinueExistingPeriodicTasksAfterShutdownPolicy(false);
        return pool.awaitTermination(30, SECONDS) && pool.recordingFailure() == null;
    }

    private static boolean front(Path trace, Path plan) throws Exception {
        TimersThreadPoolExecutor pool = new TimersThreadPoolExecutor(1);
        pool.recordTo(trace, plan);
        for (int i = 0; i < 10; i++) pool.schedule(Scenes.NOTHING, i, HOURS);
        pool.submit(Scenes.NOTHING).get();
        Scenes.eventually(() -> pool.getActiveCount() == 0);
        byte[] lines = Files.readAllBytes(trace), calls = Files.readAllBytes(plan);
        pool.shutdownNow();
        pool.awaitTermination(30, SECONDS);
        Files.write(trace, lines);
        Files.write(plan, calls);
        return new String(lines).contains("finish");
    }

    private static boolean throwing() throws Exception {
        TimersThreadPoolExecutor pool = new TimersThreadPoolExecutor(1);
        List<String> lines = new ArrayList<>();
        pool.recordTo(line -> {
            if (lines.size() == 3) throw new IllegalStateException("full");
            lines.add(line);
        }, line -> {});
        for (int i = 0; i < 10; i++) if (pool.submit(() -> 4).get() != 4) return false;
        pool.shutdown();
        return pool.awaitTermination(30, SECONDS) && lines.size() == 3 && "full".equals(pool.recordingFailure().getMessage());
    }

    private static boolean calling() throws Exception {
        TimersThreadPoolExecutor pool = new TimersThreadPoolExecutor(1);
        pool.recordTo(line -> pool.getPoolSize(), line -> {});
        boolean runs = pool.submit(() -> 4).get() == 4;
        pool.shutdown();
        return runs && pool.awaitTermination(30, SECONDS) && pool.recordingFailure().getMessage().equals("a recorder called its pool");
    }

    private static boolean crowded() throws Exception {
        int most = TimersThreadPoolExecutor.MOST_WORKERS;
        TimersThreadPoolExecutor pool = new TimersThreadPoolExecutor(most), full = new TimersThreadPoolExecutor(most);
        pool.recordTo(line -> {}, line -> {});
        boolean isBounded = pool.prestartAllCoreThreads() == MOST_TRACED && pool.getPoolSize() == MOST_TRACED && pool.submit(() -> 4).get() == 4;
        boolean isFull = full.prestartAllCoreThreads() == most;
        boolean records = records(full) == most <= MOST_TRACED;
        for (TimersThreadPoolExecutor each : List.of(pool, full)) each.shutdown();
        return isBounded && isFull && records && pool.awaitTermination(30, SECONDS) && full.awaitTermination(30, SECONDS);
    }

    private static boolean records(TimersThreadPoolExecutor pool) {
        try {
            pool.recordTo(line -> {}, line -> {});
            return true;
        } catch (IllegalStateException refused) {
            return false;
        }
    }

    private static boolean late() throws Exception {
        TimersThreadPoolExecutor pool = new TimersThreadPoolExecutor(1);
        pool.schedule(Scenes.NOTHING, 1, HOURS);
        try {
            pool.recordTo(line -> {}, line -> {});
            return false;
        } catch (IllegalStateException late) {
            return pool.recordingFailure() == null;
        } finally {
            pool.shutdownNow();
        }
    }
}
