/* A heartbeat: a task at a fixed rate, every 10 nanoseconds, that runs five times over a clock of the program's own. */
#include "sched.h"

#include <inttypes.h>
#include <stdio.h>
#include <stdlib.h>

static const char plan[] = "version = 2\n"
                           "[[block]]\n"
                           "[[block.call]]\n"
                           "op = \"rate\"\n"
                           "name = \"heartbeat\"\n"
                           "first = 10\n"
                           "period = 10\n";

/* Ends the program where a call was refused. */
static void expect_done(const char *call, sched_status status) {
    if (status == SCHED_DONE) return;
    fprintf(stderr, "%s: %s\n", call, sched_status_text(status));
    exit(1);
}

/* Writes the lines that answer the last event. A buffer with room for one line takes one line at a time. */
static void write_lines(sched_slot *slot) {
    uint8_t line[SCHED_LINE_ROOM];
    sched_copied copied = {0, 0};
    size_t next = 0;
    do {
        expect_done("sched_text", sched_text(slot, next, line, sizeof line, &copied));
        fwrite(line, 1, copied.bytes, stdout);
        next += copied.lines;
    } while (copied.lines > 0);
}

/* Whether a start can get a task now. */
static bool is_ripe(sched_slot *slot) {
    sched_state state;
    expect_done("sched_state_of", sched_state_of(slot, &state));
    return state.ripe;
}

/* Asks for work, and does it; false where there is none. */
static bool beat(sched_slot *slot) {
    sched_run run;
    expect_done("sched_start", sched_start(slot, 0));
    write_lines(slot);
    sched_status started = sched_started(slot, &run);
    if (started == SCHED_NOT_STARTED) return false;
    expect_done("sched_started", started);
    uint64_t value = run.run + 1; /* the work of run.task stands here */
    expect_done("sched_finish", sched_finish(slot, run.worker, value));
    write_lines(slot);
    return true;
}

int main(void) {
    sched_slot slot = SCHED_EMPTY;
    sched_fault fault;
    sched_status status = sched_new(&slot, (const uint8_t *)plan, sizeof plan - 1, 1, 1000, &fault);
    if (status != SCHED_DONE) {
        fprintf(stderr, "%s: fault %" PRIu32 " block %" PRIu32 " call %" PRIu32 "\n", sched_status_text(status), fault.kind, fault.block,
                fault.call);
        return 1;
    }
    int beats = 0;
    for (uint64_t moment = 0; beats < 5; moment += 5) {
        expect_done("sched_clock", sched_clock(&slot, moment));
        write_lines(&slot);
        while (beats < 5 && is_ripe(&slot) && beat(&slot)) beats += 1;
    }
    expect_done("sched_free", sched_free(&slot));
    return 0;
}
