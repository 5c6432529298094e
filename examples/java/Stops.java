/** What shutdownNow does. */
final class Stops {
    private Stops() {}

    static void waiting(Scene scene) {
        scene.schedule(5);
        scene.rate(5, 5);
        scene.at(1);
        scene.shutdownNow();
        scene.at(2);
        scene.cancel(0);
        scene.cancel(1);
    }

    static void kept(Scene scene) {
        scene.schedule(5);
        scene.at(1);
        scene.cancel(0);
        scene.at(2);
        scene.shutdownNow();
    }

    static void order(Scene scene) {
        scene.schedule(9);
        scene.schedule(7);
        scene.schedule(8);
        scene.at(1);
        scene.shutdownNow();
    }

    static void running(Scene scene) {
        scene.schedule(0);
        scene.at(1);
        scene.shutdownNow();
        scene.at(2);
    }
}
