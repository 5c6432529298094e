/** Prints the trace of one scenario: java Main NAME, where NAME is a folder that stands beside this file. */
public final class Main {
    private Main() {}

    private interface Play {
        void on(Scene scene) throws InterruptedException;
    }

    public static void main(String[] words) throws InterruptedException {
        switch (words[0]) {
            case "start" -> play(Waiting::start);
            case "kept" -> play(Waiting::kept);
            case "shutdown-again" -> play(Waiting::shutdownAgain);
            case "stop-waiting" -> play(Stops::waiting);
            case "stop-kept" -> play(Stops::kept);
            case "stop-order" -> play(Stops::order);
            case "stop-running" -> play(Stops::running);
            case "same-runs" -> play(Alike::runs);
            case "same-remove" -> play(Alike::remove);
            case "same-shutdown" -> play(Alike::shutdown);
            case "queue-ties" -> Queues.ties();
            case "long-delay" -> Delays.longest();
            default -> throw new IllegalArgumentException(words[0]);
        }
    }

    private static void play(Play play) throws InterruptedException {
        Scene.warmUp();
        try (Scene scene = new Scene()) {
            play.on(scene);
            scene.end();
        }
    }
}
