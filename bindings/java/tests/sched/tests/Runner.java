package sched.tests;

import java.util.Objects;

/** Counts what passes and what fails. */
final class Runner {
    private static int passed, failed;

    private Runner() {}

    /** What is tried. */
    interface Trial {
        Object run() throws Throwable;
    }

    /** Tries something, which has to give what is wanted. */
    static void same(String name, Object wanted, Trial trial) {
        Object found;
        try {
            found = trial.run();
        } catch (Throwable thrown) {
            found = thrown;
            thrown.printStackTrace(System.out);
        }
        told(name, Objects.equals(found, wanted), "found " + found + ", wanted " + wanted);
    }

    /** Tries something, which has to be so. */
    static void holds(String name, Trial trial) {
        same(name, true, trial);
    }

    /** Counts what was tried. */
    static synchronized void told(String name, boolean good, String why) {
        if (good) passed++;
        else failed++;
        if (!good) System.out.println(name + ": FAILED: " + why);
    }

    static void say(String text) {
        System.out.println(text);
    }

    /** Tells the counts, and ends the program. */
    static void end() {
        System.out.println(passed + " passed, " + failed + " failed");
        System.out.flush();
        Runtime.getRuntime().halt(failed == 0 ? 0 : 1);
    }
}
