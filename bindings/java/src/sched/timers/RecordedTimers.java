package sched.timers;

import java.util.function.Supplier;

/** Timers whose calls go to a recorder, one by one, with the lines that each is answered. */
final class RecordedTimers extends Timers {
    private final Recorder recorder;
    private final Supplier<String> text = this::text;

    RecordedTimers(Recorder recorder) {
        super(MOST_TRACED);
        this.recorder = recorder;
    }

    private void record() {
        recorder.trace(text);
    }

    @Override
    long submit(int kind, int place, long moment, long delay, long period) {
        long number = super.submit(kind, place, moment, delay, period);
        tell();
        recorder.submission(number, kind, moment, delay, period);
        record();
        return number;
    }

    @Override
    void rejected(int kind, long moment, long delay, long period) {
        long number = numbers();
        submitInVain(kind, moment, delay, period);
        tell();
        recorder.submission(number, kind, moment, delay, period);
        record();
    }

    @Override
    void cancel(int place, long number) {
        super.cancel(place, number);
        tell();
        record();
    }

    @Override
    int cycle(long clock, int worker, int ending, boolean wants) {
        int place = IDLE;
        if (ending != NONE) {
            super.cycle(clock, worker, ending, false);
            record();
        }
        if (wants) {
            place = super.cycle(clock, worker, NONE, true);
            record();
        }
        return place;
    }

    @Override
    int rule(long clock, int which, boolean value) {
        int ended = super.rule(clock, which, value);
        recorder.rule(now(), which, value);
        record();
        return ended;
    }

    @Override
    void close() {
        ask(now());
        recorder.question(now());
        record();
        recorder.close();
        super.close();
    }
}
