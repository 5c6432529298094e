/** What becomes of a task that waits. */
final class Waiting {
    private Waiting() {}

    static void start(Scene scene) throws InterruptedException {
        scene.schedule(2);
        scene.at(5);
        scene.finishOk(7);
    }

    static void kept(Scene scene) {
        scene.schedule(2);
        scene.at(1);
        scene.cancel(0);
        scene.at(3);
        scene.ask();
    }

    static void shutdownAgain(Scene scene) {
        scene.schedule(9);
        scene.at(1);
        scene.shutdown();
        scene.at(2);
        scene.cancel(0);
        scene.at(3);
        scene.ask();
        scene.at(4);
        scene.shutdown();
        scene.at(5);
        scene.ask();
    }
}
