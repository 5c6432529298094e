/* Tries each answer of each call of the executor, and what stands after it. */
#include "sched.h"

#include <stdio.h>
#include <stdlib.h>
#include <string.h>

static const char plan[] = "version = 2\n[[block]]\ncall = [{ op = \"rate\", name = \"a\", first = 5, period = 10 }]\n";
static const char no_plan[] = "version = 2\n[[block]]\ncall = [{ op = \"rate\", name = \"\", first = 5, period = 10 }]\n";
/* Its fault stands in the third call of the second block. */
static const char third_call_of_two[] =
    "version = 2\n"
    "[[block]]\ncall = [{ op = \"execute\", name = \"a\" }]\n"
    "[[block]]\ncall = [{ op = \"execute\", name = \"b\" }, { op = \"ask\" }, { op = \"execute\", name = \"\" }]\n";

#define DEMAND(holds)                                              \
    do {                                                           \
        if (!(holds)) {                                            \
            fprintf(stderr, "line %d: %s\n", __LINE__, #holds);    \
            exit(1);                                               \
        }                                                          \
    } while (0)

static sched_status make(sched_slot *slot, const char *text, uint32_t workers, uint64_t limit, sched_fault *fault) {
    return sched_new(slot, (const uint8_t *)text, strlen(text), workers, limit, fault);
}

static bool says(sched_slot *slot, const char *text) {
    uint8_t out[512];
    sched_copied copied;
    return sched_text(slot, 0, out, sizeof out, &copied) == SCHED_DONE && copied.bytes == strlen(text) &&
           memcmp(out, text, copied.bytes) == 0;
}

/* What each call answers where a pointer is NULL, or the slot is empty. */
static void nothing(void) {
    sched_slot slot = SCHED_EMPTY;
    sched_fault fault;
    sched_copied copied = {7, 7};
    sched_state state = {7, 7, 7, 7, 7};
    sched_task task = {7, 7, 7};
    sched_run run = {7, 7, 7, 7};
    uint8_t out[SCHED_LINE_ROOM];
    DEMAND(sched_new(NULL, NULL, 0, 1, 1, &fault) == SCHED_NULL && sched_new(&slot, NULL, 1, 1, 1, &fault) == SCHED_NULL);
    DEMAND(make(&slot, plan, 1, 1, NULL) == SCHED_NULL && !slot.full);
    DEMAND(sched_clock(NULL, 1) == SCHED_NULL && sched_clock(&slot, 1) == SCHED_NO_EXECUTOR);
    DEMAND(sched_start(NULL, 0) == SCHED_NULL && sched_start(&slot, 0) == SCHED_NO_EXECUTOR);
    DEMAND(sched_finish(NULL, 0, 1) == SCHED_NULL && sched_finish(&slot, 0, 1) == SCHED_NO_EXECUTOR);
    DEMAND(sched_fail(NULL, 0, 1) == SCHED_NULL && sched_fail(&slot, 0, 1) == SCHED_NO_EXECUTOR);
    DEMAND(sched_cancel(NULL, 0) == SCHED_NULL && sched_cancel(&slot, 0) == SCHED_NO_EXECUTOR);
    DEMAND(sched_text(&slot, 0, NULL, 1, &copied) == SCHED_NULL && copied.lines == 7);
    DEMAND(sched_text(NULL, 0, out, sizeof out, &copied) == SCHED_NULL && sched_text(&slot, 0, out, sizeof out, NULL) == SCHED_NULL);
    DEMAND(sched_state_of(NULL, &state) == SCHED_NULL && state.now == 7 && sched_task_of(NULL, 0, &task) == SCHED_NULL && task.run == 7);
    DEMAND(sched_text(&slot, 0, out, sizeof out, &copied) == SCHED_NO_EXECUTOR && copied.lines == 0 && copied.bytes == 0);
    DEMAND(sched_state_of(&slot, NULL) == SCHED_NULL && sched_state_of(&slot, &state) == SCHED_NO_EXECUTOR && state.now == 0);
    DEMAND(sched_task_of(&slot, 0, NULL) == SCHED_NULL && sched_task_of(&slot, 0, &task) == SCHED_NO_EXECUTOR && task.phase == 0);
    DEMAND(sched_started(&slot, NULL) == SCHED_NULL && sched_started(NULL, &run) == SCHED_NULL && run.due == 7);
    DEMAND(sched_started(&slot, &run) == SCHED_NO_EXECUTOR && run.run == 0 && run.due == 0 && run.task == 0 && run.worker == 0);
    DEMAND(sched_start(&slot, 256) == SCHED_NO_EXECUTOR);
    DEMAND(sched_free(NULL) == SCHED_NULL && sched_free(&slot) == SCHED_NO_EXECUTOR);
}

/* Why there is no executor, in the order in which that is found. */
static void refused(sched_slot *slot) {
    sched_fault fault;
    DEMAND(make(slot, no_plan, 0, 0, &fault) == SCHED_NO_PLAN && !slot->full);
    DEMAND(fault.kind == SCHED_FAULT_BAD_NAME && fault.block == 1 && fault.call == 1);
    DEMAND(make(slot, third_call_of_two, 1, 1, &fault) == SCHED_NO_PLAN && !slot->full);
    DEMAND(fault.kind == SCHED_FAULT_BAD_NAME && fault.block == 2 && fault.call == 3);
    DEMAND(make(slot, plan, 0, 0, &fault) == SCHED_WORKERS && fault.kind == SCHED_FAULT_NONE && !slot->full);
    DEMAND(make(slot, plan, 65, 1, &fault) == SCHED_WORKERS && make(slot, plan, 64, 0, &fault) == SCHED_LIMIT && !slot->full);
    DEMAND(make(slot, no_plan, 257, 1, &fault) == SCHED_NO_PLAN && make(slot, plan, 257, 0, &fault) == SCHED_WORKERS);
    DEMAND(make(slot, plan, UINT32_MAX, 1, &fault) == SCHED_WORKERS && make(slot, plan, 1, (UINT64_C(1) << 32) + 1, &fault) == SCHED_LIMIT);
    DEMAND(make(slot, plan, 1, UINT64_MAX, &fault) == SCHED_LIMIT && !slot->full);
    DEMAND(make(slot, plan, 1, UINT32_MAX, &fault) == SCHED_DONE && sched_free(slot) == SCHED_DONE);
    DEMAND(make(slot, plan, 64, 7, &fault) == SCHED_DONE && slot->full);
    DEMAND(make(slot, no_plan, 0, 0, &fault) == SCHED_HAS_EXECUTOR && fault.kind == SCHED_FAULT_NONE);
}

/* Which run the last event started. */
static void starts(sched_slot *slot) {
    sched_run run = {7, 7, 7, 7};
    DEMAND(sched_started(slot, &run) == SCHED_NOT_STARTED && run.due == 0 && run.worker == 0);
    DEMAND(sched_start(slot, 63) == SCHED_DONE && says(slot, "5 start 63 task 0 run 0 due 5\n"));
    DEMAND(sched_started(slot, &run) == SCHED_DONE && run.run == 0 && run.due == 5 && run.task == 0 && run.worker == 63);
    run.due = 7;
    DEMAND(sched_start(slot, 256) == SCHED_NO_WORKER && sched_finish(slot, 319, 1) == SCHED_NO_WORKER);
    DEMAND(sched_fail(slot, UINT32_MAX, 1) == SCHED_NO_WORKER && says(slot, "5 start 63 task 0 run 0 due 5\n"));
    DEMAND(sched_started(slot, &run) == SCHED_DONE && run.due == 5);
}

int main(void) {
    nothing();
    sched_slot slot = SCHED_EMPTY;
    refused(&slot);
    sched_state state;
    sched_task task;
    sched_copied copied;
    DEMAND(sched_state_of(&slot, &state) == SCHED_DONE && state.taken == 0 && state.tasks == 1 && state.lines == 0 && !state.ripe);
    DEMAND(sched_clock(&slot, 5) == SCHED_DONE && says(&slot, "0 submit 0 rate due 5\n5 clock\n"));
    DEMAND(sched_state_of(&slot, &state) == SCHED_DONE && state.now == 5 && state.lines == 2 && state.ripe == 1);
    DEMAND(sched_text(&slot, 0, NULL, 0, &copied) == SCHED_DONE && copied.lines == 0);
    DEMAND(sched_clock(&slot, 4) == SCHED_DONE && says(&slot, "5 error backward\n"));
    starts(&slot);
    DEMAND(sched_task_of(&slot, 0, &task) == SCHED_DONE && task.phase == SCHED_TASK_RUNNING && task.run == 0 && !task.cancelled);
    DEMAND(sched_finish(&slot, 63, 1) == SCHED_DONE && says(&slot, "5 finish 63 task 0 run 0 again due 15\n"));
    DEMAND(sched_task_of(&slot, 0, &task) == SCHED_DONE && task.phase == SCHED_TASK_NEW && task.run == 1);
    DEMAND(sched_task_of(&slot, 1, &task) == SCHED_UNKNOWN_TASK && task.run == 0);
    DEMAND(sched_cancel(&slot, 0) == SCHED_DONE && says(&slot, "5 outside 0 yes\n"));
    DEMAND(sched_task_of(&slot, 0, &task) == SCHED_DONE && task.cancelled == 1);
    DEMAND(sched_fail(&slot, 0, 3) == SCHED_DONE && says(&slot, "5 error not running\n"));
    DEMAND(sched_start(&slot, 64) == SCHED_DONE && says(&slot, "5 error no worker\n"));
    DEMAND(sched_start(&slot, 0) == SCHED_FULL && sched_start(&slot, 256) == SCHED_NO_WORKER);
    DEMAND(sched_clock(&slot, 6) == SCHED_FULL && says(&slot, "5 error no worker\n"));
    DEMAND(sched_state_of(&slot, &state) == SCHED_DONE && state.taken == 7 && state.now == 5);
    DEMAND(strcmp(sched_status_text(SCHED_NOT_STARTED), "no run was started") == 0);
    DEMAND(strcmp(sched_status_text(12), "no such status") == 0);
    DEMAND(strcmp(sched_status_text(SCHED_FULL), "the limit on events is reached") == 0);
    DEMAND(sched_free(&slot) == SCHED_DONE && !slot.full && sched_free(&slot) == SCHED_NO_EXECUTOR);
    printf("each answer came\n");
    return 0;
}
