/* How long the calls of the executor take, in nanoseconds an event.
 *
 *     sched_speed
 *
 * 20 rounds over a plan of 10,000 tasks with mixed delays and 50 workers: each clock reaches the submission of one task; once
 * all are due, each worker starts a task, then each finishes it, and so on. The least time of each part is printed, divided by
 * its events: first where the events alone are told, then where the text that answers each is copied too. */
#define _POSIX_C_SOURCE 199309L
#include "sched.h"
#include <stdio.h>
#include <stdlib.h>
#include <string.h>
#include <time.h>

enum { CALLS = 40, TIMES = 250, TASKS = CALLS * TIMES, WORKERS = 50, ROUNDS = 20, ALL_DUE = 1000000 };
enum { CLOCK, START, FINISH, PARTS };

static void fail(const char *what) { fprintf(stderr, "sched_speed: %s\n", what); exit(1); }

static double now_ns(void) {
    struct timespec t;
    clock_gettime(CLOCK_MONOTONIC, &t);
    return (double)t.tv_sec * 1e9 + (double)t.tv_nsec;
}

/* One block, made 250 times: 40 calls, a nanosecond apart, whose tasks are due in another order. Answers its length. */
static size_t write_plan(char *plan, size_t room) {
    size_t length = (size_t)snprintf(plan, room, "version = 2\n[[block]]\ntimes = %d\nevery = %d\n", TIMES, CALLS);
    for (int call = 0; call < CALLS; call++)
        length += (size_t)snprintf(plan + length, room - length,
                                   "[[block.call]]\nop = \"schedule\"\nname = \"task-%d\"\nat = %d\ndelay = %d\n", call, call,
                                   20000 + call * 7919 % 9973);
    if (length >= room) fail("the plan is too long");
    return length;
}

static uint64_t copied_bytes;

/* Ends an event: it was taken, and its text is copied, of so many lines, where that is asked for. */
static void end_event(sched_slot *slot, sched_status status, bool with_text, size_t lines) {
    uint8_t text[1024];
    sched_copied copied;
    if (status != SCHED_DONE) fail(sched_status_text(status));
    if (!with_text) return;
    if (sched_text(slot, 0, text, sizeof text, &copied) != SCHED_DONE || copied.lines != lines) fail("other lines");
    copied_bytes += copied.bytes;
}

/* Tells all events of a plan to a new executor, and adds up what each part took. */
static void tell_all(sched_slot *slot, bool with_text, double *took) {
    double t0 = now_ns();
    for (uint64_t moment = 0; moment < TASKS; moment++) end_event(slot, sched_clock(slot, moment), with_text, 2);
    took[CLOCK] = now_ns() - t0;
    end_event(slot, sched_clock(slot, ALL_DUE), with_text, 1);
    took[START] = took[FINISH] = 0;
    for (int turn = 0; turn < TASKS / WORKERS; turn++) {
        double t1 = now_ns();
        for (uint32_t worker = 0; worker < WORKERS; worker++) end_event(slot, sched_start(slot, worker), with_text, 1);
        double t2 = now_ns();
        for (uint32_t worker = 0; worker < WORKERS; worker++) end_event(slot, sched_finish(slot, worker, 7), with_text, 1);
        took[START] += t2 - t1;
        took[FINISH] += now_ns() - t2;
    }
}

int main(void) {
    static char plan[8192];
    size_t length = write_plan(plan, sizeof plan);
    double best[2][PARTS];
    for (int part = 0; part < PARTS; part++) best[0][part] = best[1][part] = 1e300;
    for (int round = 0; round < 2 * ROUNDS; round++) {
        int with_text = round % 2;
        double took[PARTS];
        sched_slot slot = SCHED_EMPTY;
        sched_fault fault;
        sched_task last;
        copied_bytes = 0;
        if (sched_new(&slot, (const uint8_t *)plan, length, WORKERS, 4 * TASKS, &fault) != SCHED_DONE) fail("no executor");
        tell_all(&slot, with_text, took);
        for (uint32_t task = 0; task < TASKS; task++)
            if (sched_task_of(&slot, task, &last) != SCHED_DONE || last.phase != SCHED_TASK_DONE) fail("a task is not done");
        sched_free(&slot);
        for (int part = 0; part < PARTS; part++)
            if (took[part] / TASKS < best[with_text][part]) best[with_text][part] = took[part] / TASKS;
    }
    for (int with_text = 0; with_text < 2; with_text++)
        printf("%s %d clock %.1f start %.1f finish %.1f\n", with_text ? "with text" : "told", TASKS, best[with_text][CLOCK],
               best[with_text][START], best[with_text][FINISH]);
    printf("%llu bytes of text\n", (unsigned long long)copied_bytes);
    return 0;
}
