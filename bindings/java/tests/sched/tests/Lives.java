package sched.tests;

import static java.util.concurrent.TimeUnit.HOURS;
import static java.util.concurrent.TimeUnit.MICROSECONDS;
import static java.util.concurrent.TimeUnit.SECONDS;

import java.io.File;
import java.io.IOException;
import java.io.InputStream;
import java.lang.ref.WeakReference;
import java.net.URL;
import java.net.URLClassLoader;
import java.nio.file.Files;
import java.nio.file.Path;
import java.nio.file.StandardCopyOption;
import java.security.Permission;
import java.util.ArrayList;
import java.util.List;
import java.util.concurrent.Executors;
import java.util.concurrent.ScheduledFuture;
import java.util.concurrent.ScheduledThreadPoolExecutor;
import java.util.concurrent.TimeUnit;
import sched.timers.TimersThreadPoolExecutor;

/** The ends of what is around a pool: of its class loader, and of the JVM, which runs this program's words `exit`. */
final class Lives {
    private Lives() {}

    static void run() {
        Runner.holds("class loaders that go take the library along", Lives::loaders);
        for (String how : List.of("daemons", "exit", "within", "halt", "uncaught"))
            Runner.same("the JVM ends, " + how, 0, () -> ended("-ea", "-Xcheck:jni", "-cp", System.getProperty("java.class.path"), "sched.tests.Main", "exit", how));
        for (String how : List.of("heap 32m", "full 16m")) Runner.same("want of heap, " + how, 0, () -> wants(how.split(" ")));
        Runner.holds("a library that is not there", Lives::missing);
        if (Runtime.version().feature() < 24) Runner.same("a library that an Error keeps from being loaded", 0, Lives::errors);
        Runner.holds("a library that is named, and two class loaders", Lives::named);
    }

    /** The status of a JVM with some words; what it writes is told where that is not 0. */
    private static int ended(String... words) throws Exception {
        List<String> command = new ArrayList<>(List.of(Path.of(System.getProperty("java.home"), "bin", "java").toString()));
        command.addAll(List.of(words));
        File text = File.createTempFile("exit", ".txt");
        try {
            Process process = new ProcessBuilder(command).redirectErrorStream(true).redirectOutput(text).start();
            if (!process.waitFor(120, SECONDS)) {
                process.destroyForcibly();
                return -1;
            }
            if (process.exitValue() != 0) Runner.say(Files.readString(text.toPath()));
            return process.exitValue();
        } finally {
            Files.delete(text.toPath());
        }
    }

    /** The status of a JVM that wants for heap, of which it has so much. */
    private static int wants(String[] how) throws Exception {
        return ended("-ea", "-Xms" + how[1], "-Xmx" + how[1], "-XX:+UseSerialGC", "-cp", System.getProperty("java.class.path"), "sched.tests.Main", "exit", how[0]);
    }

    private static int mapped() throws IOException {
        int found = 0;
        for (String line : Files.readAllLines(Path.of("/proc/self/maps"))) if (line.contains("libtimers_jni") && line.contains("r-xp")) found++;
        return found;
    }

    private static boolean loaders() throws Exception {
        int before = mapped();
        List<WeakReference<ClassLoader>> gone = new ArrayList<>();
        for (int i = 0; i < 3; i++) gone.add(new WeakReference<>(loadedAndDropped()));
        Scenes.eventually(() -> {
            System.gc();
            return gone.stream().allMatch(reference -> reference.get() == null) && mapped() == before;
        });
        return mapped() == before;
    }

    /** A class loader of its own for the jar. */
    private static URLClassLoader loader() {
        URL jar = TimersThreadPoolExecutor.class.getProtectionDomain().getCodeSource().getLocation();
        return new URLClassLoader(new URL[] {jar}, ClassLoader.getPlatformClassLoader());
    }

    /** A class loader of its own, by which a pool lived: one that is shut down, and one that is forgotten. */
    private static ClassLoader loadedAndDropped() throws Exception {
        URLClassLoader loader = loader();
        Class<?> pools = loader.loadClass(TimersThreadPoolExecutor.class.getName());
        if (pools == TimersThreadPoolExecutor.class) throw new AssertionError("one class loader");
        ScheduledThreadPoolExecutor pool = (ScheduledThreadPoolExecutor) pools.getConstructor(int.class).newInstance(2);
        for (int i = 0; i < 100; i++) pool.schedule(() -> 1, i, MICROSECONDS);
        pool.shutdown();
        if (!pool.awaitTermination(30, SECONDS)) throw new AssertionError("the pool does not end");
        ((ScheduledThreadPoolExecutor) pools.getConstructor(int.class).newInstance(0)).getQueue();
        loader.close();
        return loader;
    }

    /** A program stops a load by a security manager, which from Java 12 on has to be allowed, and from Java 24 on is not there. */
    private static int errors() throws Exception {
        String allows = Runtime.version().feature() < 12 ? "-Dallowed=always" : "-Djava.security.manager=allow";
        return ended(allows, "-cp", System.getProperty("java.class.path"), "sched.tests.Main", "exit", "error");
    }

    /** A file that is no library, named by the property: the constructor says what is missing, in a JVM of its own. */
    private static boolean missing() throws Exception {
        return ended("-Dsched.timers.library=/dev/null", "-cp", System.getProperty("java.class.path"), "sched.tests.Main", "exit", "missing") == 0;
    }

    /** The library as a file of its own, which the property names. */
    private static boolean named() throws Exception {
        Path library = Files.createTempFile("named", ".so");
        try (InputStream jar = TimersThreadPoolExecutor.class.getResourceAsStream("native/linux-x86_64/libtimers_jni.so")) {
            Files.copy(jar, library, StandardCopyOption.REPLACE_EXISTING);
            return ended("-Dsched.timers.library=" + library, "-cp", System.getProperty("java.class.path"), "sched.tests.Main", "exit", "named") == 0;
        } finally {
            Files.delete(library);
        }
    }

    // ---- the other JVM

    static void exit(String how) throws Exception {
        switch (how) {
            case "daemons": busy(true); break; // main ends, and daemons go on to the end
            case "exit": busy(false); System.exit(0); break;
            case "within": busy(true).schedule(() -> System.exit(0), 20, TimeUnit.MILLISECONDS); Thread.sleep(30_000); throw new AssertionError("it goes on");
            case "halt": busy(false); Runtime.getRuntime().halt(0); break;
            case "uncaught": uncaught(); break;
            case "heap": wantOfHeap(); break;
            case "full": fullHeap(); break;
            case "missing": missingHere(); break;
            case "error": errorsHere(); break;
            case "named": namedHere(); break;
            default: throw new IllegalArgumentException(how);
        }
    }

    private static ScheduledThreadPoolExecutor busy(boolean daemons) throws InterruptedException {
        ScheduledThreadPoolExecutor pool = new TimersThreadPoolExecutor(4, job -> {
            Thread thread = Executors.defaultThreadFactory().newThread(job);
            thread.setDaemon(daemons);
            return thread;
        });
        for (int i = 0; i < 100; i++) pool.scheduleAtFixedRate(() -> pool.schedule(Scenes.NOTHING, 1, HOURS).cancel(false), i, 20, MICROSECONDS);
        Thread.sleep(100);
        return pool;
    }

    /** The last thread of a pool goes by an exception that nobody catches, and takes the JVM with it. */
    private static void uncaught() {
        new Hooks() {
            @Override
            void terminated() {
                throw new IllegalStateException("terminated");
            }
        }.pool(true, 1).schedule(Scenes.NOTHING, 1, TimeUnit.MILLISECONDS);
        System.exit(0);
    }

    private static void missingHere() {
        try {
            new TimersThreadPoolExecutor(1);
            System.exit(1);
        } catch (UnsupportedOperationException refused) {
            boolean says = refused.getMessage().startsWith("the library of the timers cannot be loaded: ") && refused.getMessage().equals(TimersThreadPoolExecutor.missing());
            System.exit(says ? 0 : 1);
        }
    }

    /** An Error comes out as often as it is there, and once it is gone the library is loaded. */
    @SuppressWarnings({"deprecation", "removal"})
    private static void errorsHere() {
        int[] errors = {3};
        System.setSecurityManager(new SecurityManager() {
            @Override
            public void checkPermission(Permission permission) {}

            @Override
            public void checkLink(String library) {
                if (library.contains("timers_jni") && errors[0]-- > 0) throw new OutOfMemoryError("no memory for a library");
            }
        });
        int thrown = 0;
        for (int i = 0; i < 2; i++) {
            try {
                new TimersThreadPoolExecutor(1);
            } catch (OutOfMemoryError error) {
                thrown++;
            }
        }
        try {
            TimersThreadPoolExecutor.missing();
        } catch (OutOfMemoryError error) {
            thrown++;
        }
        new TimersThreadPoolExecutor(1).shutdown();
        System.exit(thrown == 3 && TimersThreadPoolExecutor.missing() == null ? 0 : 1);
    }

    /** A file that the property names is of one class loader: another one says so. */
    private static void namedHere() throws Exception {
        new TimersThreadPoolExecutor(1).shutdown();
        Object missing = loader().loadClass(TimersThreadPoolExecutor.class.getName()).getMethod("missing").invoke(null);
        System.exit(String.valueOf(missing).contains("already loaded in another classloader") ? 0 : 1);
    }

    /** What is let go of once the heap is full, so that the test itself has some: a field, since a local one is collected early. */
    private static Object[] ballast;

    /** A heap that is too small for what is submitted: some submissions throw, and the pool does all else as before. */
    private static void wantOfHeap() throws Exception {
        TimersThreadPoolExecutor pool = new TimersThreadPoolExecutor(1);
        pool.prestartAllCoreThreads();
        pool.setRemoveOnCancelPolicy(true);
        for (int turn = 0; turn < 3; turn++) {
            if (!fills(pool)) System.exit(2);
            pool.getQueue().forEach(task -> ((java.util.concurrent.Future<?>) task).cancel(false));
            if (pool.getQueue().size() != 0) System.exit(3);
        }
        if (pool.submit(() -> 5).get(30, SECONDS) != 5) System.exit(4);
        pool.shutdown();
        System.exit(pool.awaitTermination(30, SECONDS) ? 0 : 5);
    }

    /** A heap without room for anything: a cancel throws nothing, and a submission that throws has changed nothing. */
    private static void fullHeap() {
        TimersThreadPoolExecutor pool = new TimersThreadPoolExecutor(TimersThreadPoolExecutor.MOST_WORKERS, job -> null);
        ScheduledFuture<?>[] tasks = new ScheduledFuture<?>[2_000];
        for (int i = 0; i < tasks.length; i++) tasks[i] = pool.schedule(Scenes.NOTHING, 1, HOURS);
        int cancelled = 0;
        for (; cancelled < 20; cancelled++) tasks[cancelled].cancel(false); // all classes are there then
        fill();
        try {
            for (; cancelled < tasks.length; cancelled++) tasks[cancelled].cancel(false);
        } catch (OutOfMemoryError full) {
            ballast = null;
            System.out.println("cancel " + cancelled + " threw");
            full.printStackTrace(System.out);
            System.exit(6);
        }
        // With ever more room a submission has enough at some point, and asked for each part of it before.
        for (int room = 0; ; room++) {
            ballast = null;
            Link spare = null;
            for (int i = 0; i < room; i++) spare = new Link(spare);
            fill();
            spare = null;
            try {
                pool.schedule(Scenes.NOTHING, 1, HOURS);
                break;
            } catch (OutOfMemoryError full) {
                if (pool.getQueue().size() == tasks.length) continue;
                ballast = null;
                System.out.println("a submission threw with room for " + room);
                System.exit(7);
            }
        }
        ballast = null;
        pool.shutdownNow();
        System.exit(pool.isTerminated() ? 0 : 8);
    }

    /** One of the smallest objects that lead to another. */
    private static final class Link {
        final Link next;

        Link(Link next) {
            this.next = next;
        }
    }

    /** Takes all of the heap, in ever smaller pieces, each of which leads to the one before. */
    private static void fill() {
        for (int size = 1 << 18; size > 0; size /= 8) {
            try {
                for (;;) {
                    Object[] piece = new Object[size];
                    piece[0] = ballast;
                    ballast = piece;
                }
            } catch (OutOfMemoryError full) {
                // The next pieces are smaller.
            }
        }
    }

    private static boolean fills(TimersThreadPoolExecutor pool) {
        ballast = new Object[80];
        long accepted = 0;
        try {
            for (int i = 0; i < ballast.length; i++) ballast[i] = new byte[1 << 18];
            for (; ; accepted++) pool.schedule(Scenes.NOTHING, 1, HOURS);
        } catch (OutOfMemoryError full) {
            ballast = null;
        }
        return pool.getQueue().size() == accepted;
    }
}
