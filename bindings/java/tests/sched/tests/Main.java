package sched.tests;

import java.util.List;
import sched.timers.TimersThreadPoolExecutor;

/** Runs the tests that its words name. The last line is `N passed, M failed`, and the status is 0 exactly when M is 0. */
public final class Main {
    private Main() {}

    public static void main(String[] words) throws Exception {
        if (words[0].equals("exit")) {
            Lives.exit(words[1]);
            return;
        }
        if (TimersThreadPoolExecutor.missing() != null) throw new AssertionError(TimersThreadPoolExecutor.missing());
        for (String name : List.of(words)) run(name);
        Runner.end();
    }

    private static void run(String name) throws Exception {
        switch (name) {
            case "scenes": Scenes.run(); break;
            case "hooks": HookScenes.run(); break;
            case "differences": Differences.run(); break;
            case "random": RandomPrograms.run(Integer.getInteger("programs")); break;
            case "faults": Faults.run(); break;
            case "lives": Lives.run(); break;
            case "traces": Traces.run(); break;
            case "stress": Stress.run(Long.getLong("operations"), Integer.getInteger("threads")); break;
            default: throw new IllegalArgumentException(name);
        }
        Runner.say(name + ": done");
    }
}
