package sched.timers;

import java.io.IOException;
import java.io.InputStream;
import java.nio.file.Files;
import java.nio.file.Path;
import java.nio.file.StandardCopyOption;

/**
 * The library that the timers stand in, which is loaded once for each class loader.
 *
 * <p>It is a file within the jar. It is copied to a new file in the folder for temporary files, loaded, and the copy deleted: the system
 * keeps what is loaded. Where the property {@value #PROPERTY} names a file, that one is loaded, and nothing is copied; a JVM loads one file
 * for one class loader alone.
 */
final class NativeLibrary {
    static final String PROPERTY = "sched.timers.library";
    private static final String PLACE = "native/linux-x86_64/libtimers_jni.so";
    private static boolean isLoaded, isKnown;
    private static String missing;

    private NativeLibrary() {}

    /**
     * What is missing, as a sentence; null where the library is there. An Error that has another reason, as want of memory, is thrown, and
     * the next call tries again: no initializer of a class fails by it, which would be for good.
     */
    static synchronized String missing() {
        if (!isKnown) missing = load();
        isKnown = true;
        return missing;
    }

    /**
     * Throws what is missing.
     *
     * @throws UnsupportedOperationException where the library cannot be used here
     */
    static void require() {
        String missing = missing();
        if (missing != null) throw new UnsupportedOperationException(missing);
    }

    private static String load() {
        try {
            String named = System.getProperty(PROPERTY);
            String missing = isLoaded ? null : named == null ? loadFromJar() : loadFrom(Path.of(named));
            if (missing != null) return missing;
            return Timers.fits() ? null : "the timers need a processor of level 2 of x86-64 (x86-64-v2)";
        } catch (IOException | RuntimeException | LinkageError failure) {
            return "the library of the timers cannot be loaded: " + failure;
        }
    }

    private static String loadFrom(Path file) {
        System.load(file.toAbsolutePath().toString());
        isLoaded = true;
        return null;
    }

    private static String loadFromJar() throws IOException {
        String system = System.getProperty("os.name"), machine = System.getProperty("os.arch");
        if (!system.equals("Linux") || !(machine.equals("amd64") || machine.equals("x86_64")))
            return "the timers need Linux on x86-64, and this is " + system + " on " + machine;
        try (InputStream library = NativeLibrary.class.getResourceAsStream(PLACE)) {
            if (library == null) return "the jar has no " + PLACE;
            Path copy = Files.createTempFile("libtimers_jni", ".so");
            try {
                Files.copy(library, copy, StandardCopyOption.REPLACE_EXISTING);
                return loadFrom(copy);
            } finally {
                Files.deleteIfExists(copy);
            }
        }
    }
}
