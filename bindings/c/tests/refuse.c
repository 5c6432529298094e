/* Refuses memory: refuse PLAN WORKERS < EVENTS. The first growth of sched_new is refused, then the second, and so on until none
 * is met; each time the answer has to be SCHED_NO_MEMORY, with an empty slot and all memory given back. Then each event is taken
 * while all growths are refused. */
#include "growths.h"
#include "sched.h"

#include <inttypes.h>
#include <stdio.h>
#include <stdlib.h>

enum { MOST_PLAN = 1048576, EVENTS = 1000000 };

static void demand(bool holds, const char *what) {
    if (holds) return;
    refused = 0;
    fprintf(stderr, "%s\n", what);
    exit(1);
}

static sched_status take(sched_slot *slot, const char *line) {
    uint64_t number;
    uint32_t code;
    uint32_t worker;
    if (sscanf(line, "clock %" SCNu64, &number) == 1) return sched_clock(slot, number);
    if (sscanf(line, "start %" SCNu32, &worker) == 1) return sched_start(slot, worker);
    if (sscanf(line, "finish %" SCNu32 " ok %" SCNu64, &worker, &number) == 2) return sched_finish(slot, worker, number);
    if (sscanf(line, "finish %" SCNu32 " fail %" SCNu32, &worker, &code) == 2) return sched_fail(slot, worker, code);
    if (sscanf(line, "cancel %" SCNu32, &code) == 1) return sched_cancel(slot, code);
    demand(false, "no event line");
    return 0;
}

int main(int count, char **words) {
    static uint8_t plan[MOST_PLAN + 1];
    FILE *file = count == 3 ? fopen(words[1], "rb") : NULL;
    demand(file != NULL, "refuse PLAN WORKERS < EVENTS");
    size_t length = fread(plan, 1, sizeof plan, file);
    fclose(file);
    uint32_t workers = (uint32_t)strtoul(words[2], NULL, 10);
    sched_slot slot = SCHED_EMPTY;
    sched_fault fault;
    long growths = 0;
    for (met = true; met; growths += 1) {
        met = false;
        refused = growths + 1;
        sched_status status = sched_new(&slot, plan, length, workers, EVENTS, &fault);
        refused = 0;
        demand(status == (met ? SCHED_NO_MEMORY : SCHED_DONE), "a growth was refused, and the status is another one");
        demand(!met || (!slot.full && fault.kind == 0), "there was no memory, and the slot is not empty");
        demand(!met || blocks == 0, "there was no memory, and a block was kept");
    }
    refused = -1;
    sched_status full = sched_new(&slot, plan, length, workers, EVENTS, &fault);
    refused = 0;
    demand(full == SCHED_HAS_EXECUTOR && !met, "a full slot took memory");
    char line[128];
    while (fgets(line, sizeof line, stdin)) {
        sched_state state;
        uint8_t text[SCHED_LINE_ROOM];
        sched_copied copied;
        sched_run run;
        refused = -1;
        sched_status status = take(&slot, line);
        sched_state_of(&slot, &state);
        sched_started(&slot, &run);
        sched_text(&slot, 0, text, sizeof text, &copied);
        refused = 0;
        demand(status == SCHED_DONE && !met, "an event took memory");
    }
    demand(blocks > 0 && sched_free(&slot) == SCHED_DONE && blocks == 0, "a block was kept");
    printf("%ld growths refused\n", growths - 1);
    return 0;
}
