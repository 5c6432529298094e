/** Scenes in which Java does as this project does. */
final class Alike {
    private Alike() {}

    static void runs(Scene scene) throws InterruptedException {
        scene.rate(1, 2);
        scene.schedule(3);
        scene.fixed(1, 0);
        scene.schedule(-3);
        scene.at(2);
        scene.cancel(3);
        scene.at(3);
        scene.cancel(3);
        scene.at(4);
        scene.finishOk(7);
        scene.at(5);
        scene.finishOk(7);
        scene.at(6);
        scene.finishOk(7);
        scene.at(7);
        scene.finishOk(8);
        scene.at(8);
        scene.finishFail(4);
        scene.at(9);
        scene.cancel(0);
    }

    static void remove(Scene scene) {
        scene.schedule(9);
        scene.schedule(9);
        scene.at(1);
        scene.cancel(0);
        scene.at(2);
        scene.setRemove(true);
        scene.at(3);
        scene.ask();
        scene.cancel(0);
        scene.cancel(1);
        scene.at(4);
        scene.ask();
    }

    static void shutdown(Scene scene) throws InterruptedException {
        scene.setExecute(false);
        scene.schedule(9);
        scene.schedule(9);
        scene.schedule(1);
        scene.rate(9, 9);
        scene.fixed(0, 2);
        scene.at(2);
        scene.cancel(0);
        scene.at(3);
        scene.shutdown();
        scene.at(4);
        scene.ask();
        scene.schedule(1);
        scene.rate(1, 0);
        scene.at(5);
        scene.setContinue(true);
        scene.at(6);
        scene.finishOk(7);
        scene.at(7);
        scene.finishOk(5);
        scene.at(9);
        scene.setContinue(false);
        scene.at(10);
        scene.finishOk(7);
        scene.at(11);
        scene.ask();
    }
}
