/* Timers by the machine's clock: timers_trace FOLDER. Each scene writes its trace to FOLDER/SCENE.txt, and the plan of its calls
 * to FOLDER/SCENE.toml: `sched check FOLDER/SCENE.toml FOLDER/SCENE.txt --workers 2` takes them. What comes of the tasks is
 * compared here with what is due by then. All scenes take less than 2 seconds. tools/bindings builds and runs it, and checks the
 * traces. */
#define _POSIX_C_SOURCE 200809L
#include "timers.h"

#include <inttypes.h>
#include <stdio.h>
#include <stdlib.h>
#include <string.h>
#include <time.h>

#define MILLISECOND UINT64_C(1000000)

enum { WORKERS = 2, BLOCK_CALLS = 256 };

#define DEMAND(holds)                                              \
    do {                                                           \
        if (!(holds)) {                                            \
            fprintf(stderr, "line %d: %s\n", __LINE__, #holds);    \
            exit(1);                                               \
        }                                                          \
    } while (0)

/* The timers of a scene, and what was written of them. */
typedef struct scene {
    timers_slot slot;
    FILE *plan;
    FILE *trace;
    size_t calls;   /* how many stand in the plan */
    uint64_t block; /* the moment of its last block */
} scene;

/* Nanoseconds since the first call. */
static uint64_t now(void) {
    static struct timespec start;
    static bool started;
    struct timespec time;
    DEMAND(clock_gettime(CLOCK_MONOTONIC, &time) == 0);
    if (!started) start = time;
    started = true;
    return (uint64_t)(time.tv_sec - start.tv_sec) * 1000 * MILLISECOND + (uint64_t)time.tv_nsec - (uint64_t)start.tv_nsec;
}

static void sleep_until(uint64_t moment) {
    for (uint64_t time = now(); time < moment; time = now()) {
        struct timespec rest = {(time_t)((moment - time) / (1000 * MILLISECOND)), (long)((moment - time) % (1000 * MILLISECOND))};
        nanosleep(&rest, NULL);
    }
}

static timers_state state_of(scene *s) {
    timers_state state;
    DEMAND(timers_state_of(&s->slot, &state) == TIMERS_DONE);
    return state;
}

/* Writes the lines of the last call to the trace, in parts, as a buffer of three lines has room. */
static void note_lines(scene *s) {
    uint8_t out[3 * TIMERS_LINE_ROOM];
    timers_copied copied = {0, 0};
    size_t lines = state_of(s).lines;
    for (size_t from = 0; from < lines; from += copied.lines) {
        DEMAND(timers_text(&s->slot, from, out, sizeof out, &copied) == TIMERS_DONE && copied.lines > 0);
        DEMAND(fwrite(out, 1, copied.bytes, s->trace) == copied.bytes);
    }
}

/* Begins the last call in the plan, which was made now, with its block where that is full. What follows are its keys. */
static void begin_call(scene *s, const char *op) {
    uint64_t moment = state_of(s).now;
    note_lines(s);
    if (s->calls % BLOCK_CALLS == 0) {
        s->block = moment;
        fprintf(s->plan, "%s\n[[block]]\nat = %" PRIu64 "\ncall = [\n", s->calls == 0 ? "version = 2\n" : "]\n", moment);
    }
    s->calls++;
    fprintf(s->plan, "{ op = \"%s\", at = %" PRIu64, op, moment - s->block);
}

static void end_call(scene *s) {
    fputs(" },\n", s->plan);
}

/* The last call of the plan, which has no keys of its own. */
static void note_call(scene *s, const char *op) {
    begin_call(s, op);
    end_call(s);
}

static void name_task(scene *s, timers_ref task) {
    fprintf(s->plan, ", name = \"t%" PRIu64 "\"", task.number);
}

/* The calls, each with its part of the plan and of the trace. A task has its number as its data. */

static timers_ref schedule(scene *s, uint64_t moment, uint64_t delay) {
    timers_ref task;
    timers_status status = timers_schedule(&s->slot, moment, delay, state_of(s).numbers, &task);
    DEMAND(status == TIMERS_DONE || (status == TIMERS_SHUT && task.slot == UINT32_MAX));
    begin_call(s, "schedule");
    name_task(s, task);
    fprintf(s->plan, ", delay = %" PRIu64, delay);
    end_call(s);
    return task;
}

static timers_ref execute(scene *s) {
    timers_ref task;
    DEMAND(timers_execute(&s->slot, now(), state_of(s).numbers, &task) == TIMERS_DONE);
    begin_call(s, "execute");
    name_task(s, task);
    end_call(s);
    return task;
}

static timers_ref rate(scene *s, uint64_t moment, uint64_t first, uint64_t period) {
    timers_ref task;
    DEMAND(timers_rate(&s->slot, moment, first, period, state_of(s).numbers, &task) == TIMERS_DONE);
    begin_call(s, "rate");
    name_task(s, task);
    fprintf(s->plan, ", first = %" PRIu64 ", period = %" PRIu64, first, period);
    end_call(s);
    return task;
}

static timers_ref fixed(scene *s, uint64_t first, uint64_t delay) {
    timers_ref task;
    DEMAND(timers_fixed(&s->slot, now(), first, delay, state_of(s).numbers, &task) == TIMERS_DONE);
    begin_call(s, "fixed");
    name_task(s, task);
    fprintf(s->plan, ", first = %" PRIu64 ", delay = %" PRIu64, first, delay);
    end_call(s);
    return task;
}

static void set_policy(scene *s, uint32_t policy, bool value) {
    static const char *const names[] = {"continue", "execute", "remove"};
    DEMAND(timers_set_policy(&s->slot, now(), policy, value) == TIMERS_DONE);
    begin_call(s, "policy");
    fprintf(s->plan, ", which = \"%s\", value = %s", names[policy], value ? "true" : "false");
    end_call(s);
}

static timers_counts ask(scene *s) {
    timers_counts counts;
    DEMAND(timers_ask(&s->slot, now(), &counts) == TIMERS_DONE);
    note_call(s, "ask");
    return counts;
}

static uint32_t shut_down(scene *s) {
    uint32_t first;
    DEMAND(timers_shutdown(&s->slot, now(), &first) == TIMERS_DONE);
    note_call(s, "shutdown");
    return first;
}

static void shut_down_now(scene *s) {
    DEMAND(timers_shutdown_now(&s->slot, now()) == TIMERS_DONE);
    note_call(s, "shutdown_now");
}

/* A cancel comes from outside: it stands in the trace, and not in the plan. */
static uint32_t cancel(scene *s, timers_ref task) {
    uint32_t effect;
    DEMAND(timers_cancel(&s->slot, task, &effect) == TIMERS_DONE);
    note_lines(s);
    return effect;
}

/* So does a purge. */
static void purge(scene *s) {
    DEMAND(timers_purge(&s->slot) == TIMERS_DONE);
    note_lines(s);
}

/* Polls, and answers whether a run was begun, which was due. */
static bool poll(scene *s, uint32_t worker, timers_run *run) {
    timers_status status = timers_poll(&s->slot, now(), worker, run);
    DEMAND(status == TIMERS_DONE || status == TIMERS_IDLE);
    note_lines(s);
    DEMAND(status == TIMERS_IDLE || (run->due <= state_of(s).now && run->data == run->task.number && run->worker == worker));
    return status == TIMERS_DONE;
}

static timers_end finish(scene *s, uint32_t worker) {
    timers_end end;
    DEMAND(timers_finish(&s->slot, now(), worker, 7, &end) == TIMERS_DONE && end.data == end.task.number);
    note_lines(s);
    return end;
}

/* Sleeps until a task is due, and polls for worker 0. Answers false where no task waits. */
static bool next(scene *s, timers_run *run) {
    uint64_t due;
    if (timers_next_due(&s->slot, &due) == TIMERS_IDLE) return false;
    sleep_until(due);
    DEMAND(poll(s, 0, run) && run->due == due);
    return true;
}

static void open_scene(scene *s, const char *folder, const char *name) {
    char path[4096];
    memset(s, 0, sizeof *s);
    DEMAND(snprintf(path, sizeof path, "%s/%s.toml", folder, name) < (int)sizeof path);
    s->plan = fopen(path, "w");
    DEMAND(snprintf(path, sizeof path, "%s/%s.txt", folder, name) < (int)sizeof path);
    s->trace = fopen(path, "w");
    DEMAND(s->plan != NULL && s->trace != NULL && timers_new(&s->slot, WORKERS) == TIMERS_DONE);
}

static void close_scene(scene *s) {
    fputs(s->calls == 0 ? "version = 2\n" : "]\n", s->plan);
    DEMAND(fclose(s->plan) == 0 && fclose(s->trace) == 0 && timers_free(&s->slot) == TIMERS_DONE);
}

/* Forty tasks at two moments, and two at a fixed rate that are due then too: those of one moment run as they were submitted. */
static void ties(scene *s) {
    enum { TASKS = 42 };
    uint64_t moment = now() + 10 * MILLISECOND, period = MILLISECOND;
    timers_run run, before = {{0, 0}, 0, 0, 0, 0};
    size_t runs = 0;
    for (size_t task = 0; task < TASKS; task++) {
        uint64_t time = now();
        uint64_t delay = time < moment ? moment - time : 0;
        if (task % 20 == 10) rate(s, time, delay, period);
        else schedule(s, time, delay + task % 2 * period);
    }
    while (next(s, &run)) {
        DEMAND(runs == 0 || before.due < run.due || (before.due == run.due && before.task.number < run.task.number));
        before = run;
        runs++;
        if (run.run == 2) cancel(s, run.task);
        finish(s, 0);
    }
    DEMAND(runs == TASKS - 2 + 3 * 2 && state_of(s).alive == 0);
}

/* A task at a fixed rate, whose first run takes seven periods: it makes up for each run that was due meanwhile. */
static void rates(scene *s) {
    uint64_t first = 0, late = 0;
    timers_run run;
    timers_ref task = rate(s, now(), MILLISECOND, MILLISECOND);
    for (uint64_t number = 0; number < 12; number++) {
        DEMAND(next(s, &run) && run.run == number && run.task.number == task.number);
        if (number == 0) first = run.due;
        DEMAND(run.due == first + number * MILLISECOND);
        late += state_of(s).now >= run.due + MILLISECOND;
        if (number == 0) sleep_until(first + 7 * MILLISECOND);
        timers_end end = finish(s, 0);
        DEMAND(end.outcome == TIMERS_OUTCOME_AGAIN && end.value == run.due + MILLISECOND);
    }
    DEMAND(late >= 6);
}

/* A task with a fixed delay: each run is due that long after the one before was finished, however long it took. */
static void delays(scene *s) {
    uint64_t due = 0;
    timers_run run;
    fixed(s, MILLISECOND, 2 * MILLISECOND);
    for (uint64_t number = 0; number < 8; number++) {
        DEMAND(next(s, &run) && run.run == number && (number == 0 || run.due == due));
        sleep_until(now() + number % 3 * MILLISECOND);
        timers_end end = finish(s, 0);
        due = state_of(s).now + 2 * MILLISECOND;
        DEMAND(end.outcome == TIMERS_OUTCOME_AGAIN && end.value == due);
    }
}

/* Cancels of tasks that wait, are kept, are run, are over, or were rejected, and a purge of one that is kept. */
static void cancels(scene *s) {
    timers_run run;
    timers_ref kept = schedule(s, now(), MILLISECOND), done = execute(s), waits = schedule(s, now(), 300 * MILLISECOND);
    timers_ref beat = rate(s, now(), 2 * MILLISECOND, MILLISECOND);
    DEMAND(cancel(s, kept) == TIMERS_CANCEL_YES && cancel(s, kept) == TIMERS_CANCEL_NO && ask(s).queue == 4);
    DEMAND(next(s, &run) && run.task.number == done.number && cancel(s, done) == TIMERS_CANCEL_YES);
    DEMAND(finish(s, 0).outcome == TIMERS_OUTCOME_DROPPED && cancel(s, done) == TIMERS_CANCEL_NO);
    DEMAND(next(s, &run) && run.task.number == beat.number && ask(s).queue == 1);
    DEMAND(cancel(s, kept) == TIMERS_CANCEL_NO && finish(s, 0).outcome == TIMERS_OUTCOME_AGAIN);
    DEMAND(next(s, &run) && run.run == 1 && cancel(s, beat) == TIMERS_CANCEL_YES && finish(s, 0).outcome == TIMERS_OUTCOME_DROPPED);
    DEMAND(cancel(s, schedule(s, now(), 300 * MILLISECOND)) == TIMERS_CANCEL_YES && ask(s).queue == 2);
    purge(s);
    DEMAND(ask(s).queue == 1);
    set_policy(s, TIMERS_POLICY_REMOVE, true);
    timers_ref gone = schedule(s, now(), MILLISECOND);
    DEMAND(cancel(s, gone) == TIMERS_CANCEL_YES && cancel(s, gone) == TIMERS_CANCEL_NO && ask(s).queue == 1);
    DEMAND(shut_down(s) == 1 && cancel(s, schedule(s, now(), 1)) == TIMERS_CANCEL_NONE);
    DEMAND(next(s, &run) && run.task.number == waits.number && finish(s, 0).outcome == TIMERS_OUTCOME_DONE);
    DEMAND(cancel(s, waits) == TIMERS_CANCEL_NO && ask(s).terminated);
}

/* Runs what is due, notes which tasks that are, and answers how many. */
static size_t time_out(scene *s, bool *ran) {
    timers_run run;
    size_t runs = 0;
    for (; poll(s, 0, &run); runs++) {
        ran[run.data] = true;
        DEMAND(run.run == 0 && finish(s, 0).outcome == TIMERS_OUTCOME_DONE);
    }
    return runs;
}

/* 10,000 requests, each with a timeout: 99 of 100 are answered soon, which cancels it. Half of those are kept until they would be
 * due. Of each timeout comes a run, or it is cancelled. */
static void timeouts(scene *s) {
    enum { REQUESTS = 10000, UNDER_WAY = 100 };
    static timers_ref tasks[REQUESTS];
    static bool ran[REQUESTS];
    size_t runs = 0, cancelled = 0;
    timers_run run;
    for (size_t request = 0; request < REQUESTS + UNDER_WAY; request++) {
        size_t answered = request - UNDER_WAY;
        if (request == REQUESTS / 2) set_policy(s, TIMERS_POLICY_REMOVE, true);
        if (request < REQUESTS) tasks[request] = schedule(s, now(), 200 * MILLISECOND);
        if (request >= UNDER_WAY && answered % 100 != 99) {
            DEMAND(cancel(s, tasks[answered]) == (ran[answered] ? TIMERS_CANCEL_NO : TIMERS_CANCEL_YES));
            cancelled += !ran[answered];
        }
        if (request % 64 == 0) runs += time_out(s, ran);
    }
    while (runs + cancelled < REQUESTS && next(s, &run)) {
        DEMAND(run.task.number % 100 == 99 && finish(s, 0).outcome == TIMERS_OUTCOME_DONE);
        runs++;
    }
    DEMAND(runs >= REQUESTS / 100 && runs + cancelled == REQUESTS && !poll(s, 0, &run) && state_of(s).alive == 0);
}

/* What a shutdown leaves of four tasks that wait, one that is kept, and one that is run. */
static void shut(scene *s, bool continues, bool executes) {
    timers_run run;
    timers_ref beat = rate(s, now(), 0, 4 * MILLISECOND);
    set_policy(s, TIMERS_POLICY_CONTINUE, continues);
    set_policy(s, TIMERS_POLICY_EXECUTE, executes);
    DEMAND(next(s, &run) && run.task.number == beat.number);
    timers_ref due = execute(s), later = schedule(s, now(), 10000 * MILLISECOND), other = fixed(s, 5 * MILLISECOND, MILLISECOND);
    cancel(s, schedule(s, now(), 3 * MILLISECOND));
    rate(s, now(), 6 * MILLISECOND, MILLISECOND);
    DEMAND(shut_down(s) == 1 && state_of(s).ended == (continues ? 0u : 2u) + (executes ? 0u : 1u));
    DEMAND(state_of(s).alive == 6 - 1 - state_of(s).ended);
    DEMAND(cancel(s, later) == (executes ? TIMERS_CANCEL_YES : TIMERS_CANCEL_NO) && schedule(s, now(), 1).slot == UINT32_MAX);
    DEMAND(finish(s, 0).outcome == (continues ? TIMERS_OUTCOME_AGAIN : TIMERS_OUTCOME_ENDED) && shut_down(s) == 0);
    for (size_t runs = 0; runs < 6 && next(s, &run); runs++) {
        DEMAND(run.task.number != later.number && (continues || run.task.number == due.number));
        DEMAND(finish(s, 0).outcome == (run.task.number == due.number ? TIMERS_OUTCOME_DONE : TIMERS_OUTCOME_AGAIN));
    }
    DEMAND((cancel(s, other) == TIMERS_CANCEL_YES) == continues);
    set_policy(s, TIMERS_POLICY_EXECUTE, executes);
    set_policy(s, TIMERS_POLICY_CONTINUE, false);
    DEMAND(state_of(s).ended == (continues ? 2u : 0u) && ask(s).terminated);
}

static void shut_with_neither(scene *s) {
    shut(s, false, false);
}

static void shut_with_continue(scene *s) {
    shut(s, true, false);
}

static void shut_with_execute(scene *s) {
    shut(s, false, true);
}

static void shut_with_both(scene *s) {
    shut(s, true, true);
}

/* A shutdown at once, while both workers have a run under way. It ends 300 tasks, and an orderly one before it none. */
static void shut_at_once(scene *s) {
    enum { TASKS = 300 };
    timers_run run;
    timers_gone gone;
    set_policy(s, TIMERS_POLICY_CONTINUE, true);
    timers_ref beat = rate(s, now(), 0, MILLISECOND), once = execute(s);
    DEMAND(poll(s, 0, &run) && run.task.number == beat.number && poll(s, 1, &run) && run.task.number == once.number);
    for (uint64_t task = 0; task < TASKS; task++) schedule(s, now(), (TASKS - task) % 7 * MILLISECOND);
    DEMAND(shut_down(s) == 1 && state_of(s).ended == 0);
    shut_down_now(s);
    DEMAND(state_of(s).ended == TASKS && state_of(s).lines == TASKS + 1);
    for (size_t place = 0; place < TASKS; place++)
        DEMAND(timers_ended(&s->slot, place, &gone) == TIMERS_DONE && gone.data == place + 2);
    DEMAND(finish(s, 1).outcome == TIMERS_OUTCOME_DONE && !ask(s).terminated && finish(s, 0).outcome == TIMERS_OUTCOME_ENDED);
    shut_down_now(s);
    DEMAND(state_of(s).ended == 0 && !next(s, &run) && !poll(s, 0, &run) && ask(s).terminated);
}

static const struct { const char *name; void (*play)(scene *s); } scenes[] = {
    {"ties", ties}, {"rates", rates}, {"delays", delays}, {"cancels", cancels}, {"timeouts", timeouts},
    {"shut_with_neither", shut_with_neither}, {"shut_with_continue", shut_with_continue}, {"shut_with_execute", shut_with_execute},
    {"shut_with_both", shut_with_both}, {"shut_at_once", shut_at_once}};

int main(int count, char **words) {
    if (count != 2) {
        fprintf(stderr, "timers_trace FOLDER\n");
        return 2;
    }
    for (size_t place = 0; place < sizeof scenes / sizeof *scenes; place++) {
        scene s;
        open_scene(&s, words[1], scenes[place].name);
        scenes[place].play(&s);
        close_scene(&s);
        printf("%s\n", scenes[place].name);
    }
    return 0;
}
