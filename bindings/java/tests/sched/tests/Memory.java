package sched.tests;

import java.io.IOException;
import java.nio.file.Files;
import java.nio.file.Path;

/** Memory, in the heap and outside. The two native calls are of the library that tests have. */
final class Memory {
    private Memory() {}

    /** How many blocks the library holds. */
    static native long blocks();

    /** So many growths are allowed from now on, and then none; all where it is negative. */
    static native void allow(long growths);

    /** What of this program is resident, in bytes. */
    static long resident() throws IOException {
        for (String line : Files.readAllLines(Path.of("/proc/self/status")))
            if (line.startsWith("VmRSS:")) return 1024 * Long.parseLong(line.replaceAll("\\D", ""));
        throw new IOException("/proc/self/status has no VmRSS");
    }

    /** What of the heap is in use, once it was collected. */
    static long heap() throws InterruptedException {
        for (int i = 0; i < 3; i++) {
            System.gc();
            Thread.sleep(10);
        }
        return Runtime.getRuntime().totalMemory() - Runtime.getRuntime().freeMemory();
    }
}
