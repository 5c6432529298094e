package sched.timers;

/** The numbers that stand in the class, beside the library's. */
public final class Limits {
    private Limits() {}

    /** Whether the library takes as many workers as the class says, and no more. */
    public static boolean workers() {
        new Timers(Timers.MOST_WORKERS).close();
        try {
            new Timers(Timers.MOST_WORKERS + 1).close();
            return false;
        } catch (AssertionError refused) {
            return refused.getMessage().equals("the timers answered status 4");
        }
    }
}
