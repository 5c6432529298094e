/* Each answer of each call of the timers, with what is written then and the lines of the call, and each growth refused in turn.
 * With the word `far` it makes 2^32 submissions as well, to have one whose number no line can tell: that takes a minute.
 * TIMERS_FULL is not met, since 2^64 - 1 submissions come before it. tools/bindings builds and runs it. */
#include "growths.h"
#include "timers.h"

#include <stdio.h>
#include <stdlib.h>
#include <string.h>

#define LONGEST (UINT64_C(1) << 62)

static int faults;

#define WANT(test) do { if (!(test)) { fprintf(stderr, "line %d: not so: %s\n", __LINE__, #test); faults++; } } while (0)

/* What each object holds before a call that is to write zeros to it, or nothing. */
static const timers_ref sevens_ref = {7, 7};
static const timers_run sevens_run = {{7, 7}, 7, 7, 7, 7};
static const timers_end sevens_end = {{7, 7}, 7, 7, 7, 7};
static const timers_gone sevens_gone = {{7, 7}, 7};
static const timers_task sevens_task = {7, 7, 7, 7};
static const timers_counts sevens_counts = {7, 7, 7, 7};

static bool is_ref(timers_ref ref, uint64_t number, uint32_t slot) {
    return ref.number == number && ref.slot == slot;
}

static bool is_run(timers_run run, timers_ref task, uint64_t number, uint64_t due, uint64_t data, uint32_t worker) {
    return is_ref(run.task, task.number, task.slot) && run.run == number && run.due == due && run.data == data &&
           run.worker == worker;
}

static bool is_end(timers_end end, timers_ref task, uint64_t run, uint64_t data, uint32_t outcome, uint64_t value) {
    return is_ref(end.task, task.number, task.slot) && end.run == run && end.data == data && end.outcome == outcome &&
           end.value == value;
}

static bool is_gone(timers_gone gone, timers_ref task, uint64_t data) {
    return is_ref(gone.task, task.number, task.slot) && gone.data == data;
}

static bool is_task(timers_task task, uint32_t phase, uint32_t cancelled, uint64_t run, uint64_t due) {
    return task.phase == phase && task.cancelled == cancelled && task.run == run && task.due == due;
}

static bool are_counts(timers_counts counts, size_t queue, size_t running, uint32_t shut, uint32_t terminated) {
    return counts.queue == queue && counts.running == running && counts.shut == shut && counts.terminated == terminated;
}

static const timers_ref no_task = {0, 0};

static timers_state state_of(timers_slot *slot) {
    timers_state state = {7, 7, 7, 7, 7, 7, 7, 7};
    WANT(timers_state_of(slot, &state) == TIMERS_DONE);
    return state;
}

/* Whether the lines of the last call are these, and as many as the state says. */
static bool says(timers_slot *slot, const char *text) {
    uint8_t out[4096];
    timers_copied copied = {7, 7};
    if (timers_text(slot, 0, out, sizeof out, &copied) != TIMERS_DONE) return false;
    return copied.bytes == strlen(text) && memcmp(out, text, copied.bytes) == 0 && copied.lines == state_of(slot).lines;
}

static timers_slot made(uint32_t workers) {
    timers_slot slot = TIMERS_EMPTY;
    WANT(timers_new(&slot, workers) == TIMERS_DONE && slot.full);
    return slot;
}

static timers_ref scheduled(timers_slot *slot, uint64_t now, uint64_t delay, uint64_t data) {
    timers_ref task = sevens_ref;
    WANT(timers_schedule(slot, now, delay, data, &task) == TIMERS_DONE);
    return task;
}

/* Submissions and events of an empty slot: zeros are written, but that the runs and the ends of the calls for many stay. */
static void submissions_without_timers(void) {
    timers_slot slot = TIMERS_EMPTY;
    timers_ref task = sevens_ref;
    timers_run run = sevens_run;
    timers_end end = sevens_end;
    timers_ending ending = {7, 7, 7};
    uint32_t effect = 7;
    size_t many = 7;
    WANT(timers_reserve(&slot, 1) == TIMERS_NO_TIMERS);
    WANT(timers_schedule(&slot, 1, LONGEST + 1, 1, &task) == TIMERS_NO_TIMERS && is_ref(task, 0, 0));
    task = sevens_ref;
    WANT(timers_execute(&slot, 1, 1, &task) == TIMERS_NO_TIMERS && is_ref(task, 0, 0));
    task = sevens_ref;
    WANT(timers_rate(&slot, 1, 1, 0, 1, &task) == TIMERS_NO_TIMERS && is_ref(task, 0, 0));
    task = sevens_ref;
    WANT(timers_fixed(&slot, 1, 1, 0, 1, &task) == TIMERS_NO_TIMERS && is_ref(task, 0, 0));
    WANT(timers_cancel(&slot, task, &effect) == TIMERS_NO_TIMERS && effect == 0 && timers_purge(&slot) == TIMERS_NO_TIMERS);
    WANT(timers_poll(&slot, 1, 64, &run) == TIMERS_NO_TIMERS && is_run(run, no_task, 0, 0, 0, 0));
    run = sevens_run;
    WANT(timers_poll_many(&slot, 1, &run, 1, &many) == TIMERS_NO_TIMERS && many == 0 && is_run(run, sevens_ref, 7, 7, 7, 7));
    WANT(timers_finish(&slot, 1, 64, 1, &end) == TIMERS_NO_TIMERS && is_end(end, no_task, 0, 0, 0, 0));
    end = sevens_end;
    WANT(timers_fail(&slot, 1, 64, 1, &end) == TIMERS_NO_TIMERS && is_end(end, no_task, 0, 0, 0, 0));
    end = sevens_end;
    many = 7;
    WANT(timers_finish_many(&slot, 1, &ending, &end, 1, &many) == TIMERS_NO_TIMERS && many == 0);
    WANT(is_end(end, sevens_ref, 7, 7, 7, 7));
    WANT(timers_free(&slot) == TIMERS_NO_TIMERS && slot.hidden == NULL && !slot.full);
}

/* The other calls of an empty slot. */
static void looks_without_timers(void) {
    timers_slot slot = TIMERS_EMPTY;
    timers_state state = {7, 7, 7, 7, 7, 7, 7, 7};
    timers_task task = sevens_task;
    timers_counts counts = sevens_counts;
    timers_gone gone = sevens_gone;
    timers_copied copied = {7, 7};
    uint8_t out[TIMERS_LINE_ROOM] = {7};
    uint64_t due = 7;
    uint32_t first = 7;
    WANT(timers_next_due(&slot, &due) == TIMERS_NO_TIMERS && due == 0);
    due = 7;
    WANT(timers_head_due(&slot, &due) == TIMERS_NO_TIMERS && due == 0);
    WANT(timers_task_of(&slot, sevens_ref, &task) == TIMERS_NO_TIMERS && is_task(task, 0, 0, 0, 0));
    WANT(timers_state_of(&slot, &state) == TIMERS_NO_TIMERS);
    WANT(state.now == 0 && state.numbers == 0 && state.alive == 0 && state.ended == 0 && state.lines == 0);
    WANT(state.policies == 0 && state.shut == 0 && state.terminated == 0);
    WANT(timers_ask(&slot, 1, &counts) == TIMERS_NO_TIMERS && are_counts(counts, 0, 0, 0, 0));
    WANT(timers_set_policy(&slot, 1, 3, true) == TIMERS_NO_TIMERS);
    WANT(timers_shutdown(&slot, 1, &first) == TIMERS_NO_TIMERS && first == 0);
    WANT(timers_shutdown_now(&slot, 1) == TIMERS_NO_TIMERS);
    WANT(timers_ended(&slot, 0, &gone) == TIMERS_NO_TIMERS && is_gone(gone, no_task, 0));
    WANT(timers_text(&slot, 0, out, sizeof out, &copied) == TIMERS_NO_TIMERS && copied.lines == 0 && copied.bytes == 0);
    WANT(out[0] == 7);
}

/* A pointer that is NULL comes before all else, also of an empty slot, and nothing is written then. */
static void submissions_with_null(timers_slot *slot) {
    timers_ref task = sevens_ref;
    timers_run run = sevens_run;
    timers_end end = sevens_end;
    timers_ending ending = {7, 7, 7};
    uint32_t effect = 7;
    size_t many = 7;
    WANT(timers_new(NULL, 0) == TIMERS_NULL && timers_free(NULL) == TIMERS_NULL && timers_reserve(NULL, 1) == TIMERS_NULL);
    WANT(timers_schedule(NULL, 1, 1, 1, &task) == TIMERS_NULL && timers_schedule(slot, 1, 1, 1, NULL) == TIMERS_NULL);
    WANT(timers_execute(NULL, 1, 1, &task) == TIMERS_NULL && timers_execute(slot, 1, 1, NULL) == TIMERS_NULL);
    WANT(timers_rate(NULL, 1, 1, 1, 1, &task) == TIMERS_NULL && timers_rate(slot, 1, 1, 1, 1, NULL) == TIMERS_NULL);
    WANT(timers_fixed(NULL, 1, 1, 1, 1, &task) == TIMERS_NULL && timers_fixed(slot, 1, 1, 1, 1, NULL) == TIMERS_NULL);
    WANT(timers_cancel(NULL, task, &effect) == TIMERS_NULL && timers_cancel(slot, task, NULL) == TIMERS_NULL);
    WANT(timers_purge(NULL) == TIMERS_NULL);
    WANT(timers_poll(NULL, 1, 0, &run) == TIMERS_NULL && timers_poll(slot, 1, 0, NULL) == TIMERS_NULL);
    WANT(timers_poll_many(NULL, 1, &run, 1, &many) == TIMERS_NULL && timers_poll_many(slot, 1, &run, 1, NULL) == TIMERS_NULL);
    WANT(timers_poll_many(slot, 1, NULL, 1, &many) == TIMERS_NULL);
    WANT(timers_finish(NULL, 1, 0, 1, &end) == TIMERS_NULL && timers_finish(slot, 1, 0, 1, NULL) == TIMERS_NULL);
    WANT(timers_fail(NULL, 1, 0, 1, &end) == TIMERS_NULL && timers_fail(slot, 1, 0, 1, NULL) == TIMERS_NULL);
    WANT(timers_finish_many(NULL, 1, &ending, &end, 1, &many) == TIMERS_NULL);
    WANT(timers_finish_many(slot, 1, &ending, &end, 1, NULL) == TIMERS_NULL);
    WANT(timers_finish_many(slot, 1, NULL, &end, 1, &many) == TIMERS_NULL);
    WANT(timers_finish_many(slot, 1, &ending, NULL, 1, &many) == TIMERS_NULL);
    WANT(is_ref(task, 7, 7) && is_run(run, sevens_ref, 7, 7, 7, 7) && is_end(end, sevens_ref, 7, 7, 7, 7) && effect == 7);
    WANT(many == 7);
}

static void looks_with_null(timers_slot *slot) {
    timers_state state = {7, 7, 7, 7, 7, 7, 7, 7};
    timers_task task = sevens_task;
    timers_counts counts = sevens_counts;
    timers_gone gone = sevens_gone;
    timers_copied copied = {7, 7};
    uint8_t out[TIMERS_LINE_ROOM] = {7};
    uint64_t due = 7;
    uint32_t first = 7;
    WANT(timers_next_due(NULL, &due) == TIMERS_NULL && timers_next_due(slot, NULL) == TIMERS_NULL && due == 7);
    WANT(timers_head_due(NULL, &due) == TIMERS_NULL && timers_head_due(slot, NULL) == TIMERS_NULL && due == 7);
    WANT(timers_task_of(NULL, no_task, &task) == TIMERS_NULL && timers_task_of(slot, no_task, NULL) == TIMERS_NULL);
    WANT(is_task(task, 7, 7, 7, 7));
    WANT(timers_state_of(NULL, &state) == TIMERS_NULL && timers_state_of(slot, NULL) == TIMERS_NULL && state.now == 7);
    WANT(state.terminated == 7);
    WANT(timers_ask(NULL, 1, &counts) == TIMERS_NULL && timers_ask(slot, 1, NULL) == TIMERS_NULL && are_counts(counts, 7, 7, 7, 7));
    WANT(timers_set_policy(NULL, 1, 0, true) == TIMERS_NULL && timers_shutdown_now(NULL, 1) == TIMERS_NULL);
    WANT(timers_shutdown(NULL, 1, &first) == TIMERS_NULL && timers_shutdown(slot, 1, NULL) == TIMERS_NULL && first == 7);
    WANT(timers_ended(NULL, 0, &gone) == TIMERS_NULL && timers_ended(slot, 0, NULL) == TIMERS_NULL && is_gone(gone, sevens_ref, 7));
    WANT(timers_text(NULL, 0, out, sizeof out, &copied) == TIMERS_NULL);
    WANT(timers_text(slot, 0, out, sizeof out, NULL) == TIMERS_NULL);
    WANT(timers_text(slot, 0, NULL, 1, &copied) == TIMERS_NULL && copied.lines == 7 && copied.bytes == 7 && out[0] == 7);
}

/* The same with timers: nothing of them changes. NULL is taken where nothing is to be read or written there. */
static void with_null(void) {
    timers_slot empty = TIMERS_EMPTY, slot = made(1);
    timers_copied copied = {7, 7};
    size_t many = 7;
    submissions_with_null(&empty);
    looks_with_null(&empty);
    WANT(empty.hidden == NULL && !empty.full);
    submissions_with_null(&slot);
    looks_with_null(&slot);
    timers_state state = state_of(&slot);
    WANT(state.now == 0 && state.numbers == 0 && state.lines == 0 && !state.shut);
    WANT(timers_poll_many(&slot, 5, NULL, 0, &many) == TIMERS_DONE && many == 0);
    many = 7;
    WANT(timers_finish_many(&slot, 5, NULL, NULL, 0, &many) == TIMERS_DONE && many == 0);
    WANT(timers_text(&slot, 0, NULL, 0, &copied) == TIMERS_DONE && copied.lines == 0 && copied.bytes == 0);
    WANT(state_of(&slot).now == 0 && says(&slot, "") && timers_free(&slot) == TIMERS_DONE);
}

/* Timers are made in an empty slot, for 1 to 255 workers. */
static void workers(void) {
    timers_slot slot = TIMERS_EMPTY;
    timers_run run = sevens_run;
    for (uint32_t worker = 0; worker <= 3; worker++) {
        const uint32_t wrong[] = {0, 256, 257, UINT32_MAX};
        WANT(timers_new(&slot, wrong[worker]) == TIMERS_WORKERS && slot.hidden == NULL && !slot.full);
    }
    WANT(timers_new(&slot, 255) == TIMERS_DONE && timers_new(&slot, 0) == TIMERS_HAS_TIMERS && slot.full);
    WANT(timers_poll(&slot, 0, 254, &run) == TIMERS_IDLE && timers_poll(&slot, 0, 255, &run) == TIMERS_NO_WORKER);
    met = false;
    refused = -1;
    timers_status status = timers_new(&slot, 1);
    refused = 0;
    WANT(status == TIMERS_HAS_TIMERS && !met);
    WANT(timers_free(&slot) == TIMERS_DONE && slot.hidden == NULL && !slot.full && timers_free(&slot) == TIMERS_NO_TIMERS);
}

/* Each submission, with its line. */
static void submissions(void) {
    timers_slot slot = made(1);
    timers_ref once = scheduled(&slot, 3, 5, 70), other = sevens_ref;
    timers_task task = sevens_task;
    WANT(once.number == 0 && says(&slot, "3 submit 0 schedule due 8\n"));
    WANT(timers_execute(&slot, 2, 71, &other) == TIMERS_DONE && other.number == 1 && says(&slot, "3 submit 1 schedule due 3\n"));
    WANT(other.slot != once.slot && timers_task_of(&slot, other, &task) == TIMERS_DONE);
    WANT(is_task(task, TIMERS_TASK_WAITING, 0, 0, 3));
    WANT(timers_rate(&slot, 4, 0, LONGEST, 72, &other) == TIMERS_DONE && says(&slot, "4 submit 2 rate due 4\n"));
    WANT(timers_fixed(&slot, 4, LONGEST, 1, 73, &other) == TIMERS_DONE);
    WANT(says(&slot, "4 submit 3 fixed due 4611686018427387908\n"));
    WANT(timers_schedule(&slot, LONGEST, LONGEST, 74, &other) == TIMERS_DONE);
    WANT(says(&slot, "4611686018427387904 submit 4 schedule due 9223372036854775808\n") && state_of(&slot).alive == 5);
    WANT(timers_free(&slot) == TIMERS_DONE);
}

/* What is wrong with a submission, in the order in which that is found: nothing changes, and zeros are written. */
static void submissions_refused(void) {
    timers_slot slot = made(1);
    scheduled(&slot, 3, 5, 70);
    const uint64_t far = LONGEST + 1;
    const struct { timers_status status; bool rate; uint64_t now, first, period; } wrong[] = {
        {TIMERS_ILLEGAL, true, far, far, 0}, {TIMERS_ILLEGAL, false, far, far, 0}, {TIMERS_TOO_LONG, true, far, 0, far},
        {TIMERS_TOO_LONG, true, far, far, 1}, {TIMERS_TOO_LONG, false, far, 0, UINT64_MAX}, {TIMERS_TOO_LONG, false, far, far, 1},
        {TIMERS_TOO_FAR, true, far, 0, 1}, {TIMERS_TOO_FAR, false, UINT64_MAX, LONGEST, LONGEST}};
    for (size_t row = 0; row < sizeof wrong / sizeof *wrong; row++) {
        timers_ref task = sevens_ref;
        uint64_t now = wrong[row].now, first = wrong[row].first, period = wrong[row].period;
        timers_status status = (wrong[row].rate ? timers_rate : timers_fixed)(&slot, now, first, period, 1, &task);
        WANT(status == wrong[row].status && is_ref(task, 0, 0));
    }
    timers_ref task = sevens_ref;
    WANT(timers_schedule(&slot, far, far, 1, &task) == TIMERS_TOO_LONG && is_ref(task, 0, 0));
    task = sevens_ref;
    WANT(timers_schedule(&slot, far, LONGEST, 1, &task) == TIMERS_TOO_FAR && is_ref(task, 0, 0));
    task = sevens_ref;
    WANT(timers_execute(&slot, far, 1, &task) == TIMERS_TOO_FAR && is_ref(task, 0, 0));
    timers_state state = state_of(&slot);
    WANT(state.numbers == 1 && state.alive == 1 && state.now == 3 && says(&slot, "3 submit 0 schedule due 8\n"));
    WANT(timers_free(&slot) == TIMERS_DONE);
}

/* Submissions to timers that are shut: each is given a number, and those that are wrong are told so first. */
static void rejected(void) {
    timers_slot slot = made(1);
    timers_ref task = scheduled(&slot, 1, 1, 70), other = sevens_ref;
    timers_task state = sevens_task;
    uint32_t first, effect = 7;
    WANT(timers_shutdown(&slot, 2, &first) == TIMERS_DONE && first == 1);
    WANT(timers_schedule(&slot, 3, 5, 1, &other) == TIMERS_SHUT && is_ref(other, 1, UINT32_MAX));
    WANT(says(&slot, "3 refuse 1 rejected\n"));
    WANT(timers_execute(&slot, 1, 1, &other) == TIMERS_SHUT && is_ref(other, 2, UINT32_MAX));
    WANT(says(&slot, "3 refuse 2 rejected\n"));
    WANT(timers_rate(&slot, 4, 0, 1, 1, &other) == TIMERS_SHUT && is_ref(other, 3, UINT32_MAX));
    WANT(says(&slot, "4 refuse 3 rejected\n"));
    WANT(timers_fixed(&slot, 4, 0, 0, 1, &other) == TIMERS_ILLEGAL);
    WANT(timers_rate(&slot, 4, LONGEST + 1, 1, 1, &other) == TIMERS_TOO_LONG);
    WANT(timers_schedule(&slot, LONGEST + 1, 1, 1, &other) == TIMERS_TOO_FAR && is_ref(other, 0, 0));
    WANT(timers_fixed(&slot, 5, 0, 1, 1, &other) == TIMERS_SHUT && is_ref(other, 4, UINT32_MAX) && state_of(&slot).numbers == 5);
    WANT(timers_cancel(&slot, other, &effect) == TIMERS_DONE && effect == TIMERS_CANCEL_NONE && says(&slot, "5 outside 4 none\n"));
    WANT(timers_task_of(&slot, other, &state) == TIMERS_DONE && is_task(state, TIMERS_TASK_GONE, 0, 0, 0));
    WANT(timers_task_of(&slot, task, &state) == TIMERS_DONE && is_task(state, TIMERS_TASK_WAITING, 0, 0, 2));
    WANT(state_of(&slot).alive == 1 && timers_free(&slot) == TIMERS_DONE);
}

/* The moments of the calls: polls and finishes do not go back, and each other call comes 1 ns after them. */
static void moments(void) {
    timers_slot slot = made(1);
    timers_run run = sevens_run;
    timers_end end = sevens_end;
    timers_counts counts = sevens_counts;
    timers_ref task = scheduled(&slot, 0, 0, 70);
    uint32_t first = 7;
    WANT(timers_ask(&slot, 9, &counts) == TIMERS_DONE && says(&slot, "9 ask queue 1 running 0 shutdown no terminated no\n"));
    WANT(timers_poll(&slot, 4, 0, &run) == TIMERS_DONE && says(&slot, "9 clock\n9 start 0 task 0 run 0 due 0\n"));
    WANT(timers_finish(&slot, 8, 0, 1, &end) == TIMERS_DONE && says(&slot, "9 clock\n9 finish 0 task 0 run 0 done 1\n"));
    WANT(timers_ask(&slot, 9, &counts) == TIMERS_DONE && state_of(&slot).now == 10);
    WANT(timers_ask(&slot, 0, &counts) == TIMERS_DONE && state_of(&slot).now == 10);
    WANT(timers_poll(&slot, LONGEST + 1, 0, &run) == TIMERS_TOO_FAR && state_of(&slot).now == 10);
    WANT(timers_poll(&slot, LONGEST, 0, &run) == TIMERS_IDLE && state_of(&slot).now == LONGEST);
    WANT(timers_poll(&slot, 0, 0, &run) == TIMERS_IDLE);
    WANT(says(&slot, "4611686018427387904 clock\n4611686018427387904 start 0 idle\n"));
    WANT(timers_schedule(&slot, 0, 0, 1, &task) == TIMERS_TOO_FAR && timers_ask(&slot, 0, &counts) == TIMERS_TOO_FAR);
    WANT(are_counts(counts, 0, 0, 0, 0) && timers_set_policy(&slot, 0, 0, true) == TIMERS_TOO_FAR);
    first = 7;
    WANT(timers_shutdown(&slot, 0, &first) == TIMERS_TOO_FAR && first == 0 && timers_shutdown_now(&slot, 0) == TIMERS_TOO_FAR);
    timers_state state = state_of(&slot);
    WANT(state.numbers == 1 && !state.shut && state.policies == 2 && state.lines == 2 && timers_free(&slot) == TIMERS_DONE);
}

/* Polls: who is refused, and who begins which run. Of two tasks that are due at one moment, the one submitted first comes first. */
static void polls(void) {
    timers_slot slot = made(3);
    timers_run run = sevens_run;
    timers_ref late = scheduled(&slot, 0, 6, 70), early = scheduled(&slot, 1, 4, 71), tie = scheduled(&slot, 2, 3, 72);
    uint64_t due = 7;
    WANT(timers_next_due(&slot, &due) == TIMERS_DONE && due == 5);
    WANT(timers_poll(&slot, LONGEST + 1, 3, &run) == TIMERS_NO_WORKER && is_run(run, no_task, 0, 0, 0, 0));
    WANT(timers_poll(&slot, 4, 0, &run) == TIMERS_IDLE && is_run(run, no_task, 0, 0, 0, 0));
    WANT(says(&slot, "4 clock\n4 start 0 idle\n"));
    WANT(timers_poll(&slot, 5, 0, &run) == TIMERS_DONE && is_run(run, early, 0, 5, 71, 0));
    WANT(says(&slot, "5 clock\n5 start 0 task 1 run 0 due 5\n"));
    WANT(timers_poll(&slot, LONGEST + 1, 0, &run) == TIMERS_BUSY && is_run(run, no_task, 0, 0, 0, 0));
    WANT(timers_poll(&slot, 9, UINT32_MAX, &run) == TIMERS_NO_WORKER && says(&slot, "5 clock\n5 start 0 task 1 run 0 due 5\n"));
    WANT(timers_poll(&slot, 5, 2, &run) == TIMERS_DONE && is_run(run, tie, 0, 5, 72, 2));
    WANT(timers_next_due(&slot, &due) == TIMERS_DONE && due == 6);
    run = sevens_run;
    WANT(timers_poll(&slot, LONGEST + 1, 1, &run) == TIMERS_TOO_FAR && is_run(run, no_task, 0, 0, 0, 0));
    WANT(state_of(&slot).now == 5);
    WANT(timers_poll(&slot, 7, 1, &run) == TIMERS_DONE && is_run(run, late, 0, 6, 70, 1));
    WANT(says(&slot, "7 clock\n7 start 1 task 0 run 0 due 6\n") && timers_next_due(&slot, &due) == TIMERS_IDLE && due == 0);
    WANT(state_of(&slot).alive == 3 && timers_free(&slot) == TIMERS_DONE);
}

/* Finishes: who is refused, and the outcomes of tasks that are not cancelled. */
static void finishes(void) {
    timers_slot slot = made(2);
    timers_run run = sevens_run;
    timers_end end = sevens_end;
    timers_ref once = scheduled(&slot, 0, 0, 70), other = scheduled(&slot, 0, 0, 71), rate, fixed;
    WANT(timers_rate(&slot, 0, 1, 10, 72, &rate) == TIMERS_DONE && timers_fixed(&slot, 0, 1, 10, 73, &fixed) == TIMERS_DONE);
    WANT(timers_poll(&slot, 1, 0, &run) == TIMERS_DONE && timers_poll(&slot, 1, 1, &run) == TIMERS_DONE);
    WANT(is_run(run, other, 0, 0, 71, 1));
    WANT(timers_finish(&slot, LONGEST + 1, 2, 1, &end) == TIMERS_NO_WORKER && is_end(end, no_task, 0, 0, 0, 0));
    end = sevens_end;
    WANT(timers_fail(&slot, LONGEST + 1, 0, 1, &end) == TIMERS_TOO_FAR && is_end(end, no_task, 0, 0, 0, 0));
    WANT(timers_finish(&slot, 2, 0, UINT64_MAX, &end) == TIMERS_DONE && is_end(end, once, 0, 70, TIMERS_OUTCOME_DONE, UINT64_MAX));
    WANT(says(&slot, "2 clock\n2 finish 0 task 0 run 0 done 18446744073709551615\n"));
    WANT(timers_finish(&slot, LONGEST + 1, 0, 1, &end) == TIMERS_NOT_RUNNING && is_end(end, no_task, 0, 0, 0, 0));
    WANT(timers_fail(&slot, 3, 1, UINT32_MAX, &end) == TIMERS_DONE && is_end(end, other, 0, 71, TIMERS_OUTCOME_FAILED, UINT32_MAX));
    WANT(says(&slot, "3 clock\n3 finish 1 task 1 run 0 failed 4294967295\n"));
    WANT(timers_fail(&slot, 3, 1, 1, &end) == TIMERS_NOT_RUNNING);
    WANT(timers_poll(&slot, 25, 0, &run) == TIMERS_DONE && is_run(run, rate, 0, 1, 72, 0));
    WANT(timers_poll(&slot, 25, 1, &run) == TIMERS_DONE && is_run(run, fixed, 0, 1, 73, 1));
    WANT(timers_finish(&slot, 26, 0, 7, &end) == TIMERS_DONE && is_end(end, rate, 0, 72, TIMERS_OUTCOME_AGAIN, 11));
    WANT(says(&slot, "26 clock\n26 finish 0 task 2 run 0 again due 11\n"));
    WANT(timers_finish(&slot, 26, 1, 7, &end) == TIMERS_DONE && is_end(end, fixed, 0, 73, TIMERS_OUTCOME_AGAIN, 36));
    WANT(timers_poll(&slot, 26, 0, &run) == TIMERS_DONE && is_run(run, rate, 1, 11, 72, 0));
    WANT(timers_fail(&slot, 27, 0, 0, &end) == TIMERS_DONE && is_end(end, rate, 1, 72, TIMERS_OUTCOME_FAILED, 0));
    WANT(state_of(&slot).alive == 1 && timers_free(&slot) == TIMERS_DONE);
}

/* Polls for many workers, until one begins none. */
static void polls_of_many(void) {
    timers_slot slot = made(4);
    timers_run runs[4] = {{{7, 7}, 7, 7, 7, 3}, {{7, 7}, 7, 7, 7, 1}, {{7, 7}, 7, 7, 7, 0}, {{7, 7}, 7, 7, 7, 2}};
    size_t begun = 7;
    timers_ref one = scheduled(&slot, 0, 2, 70), two = scheduled(&slot, 0, 1, 71), three = scheduled(&slot, 0, 9, 72);
    WANT(timers_poll_many(&slot, 5, runs, 4, &begun) == TIMERS_IDLE && begun == 2 && says(&slot, "5 clock\n5 start 0 idle\n"));
    WANT(is_run(runs[0], two, 0, 1, 71, 3) && is_run(runs[1], one, 0, 2, 70, 1));
    WANT(is_run(runs[2], sevens_ref, 7, 7, 7, 0) && is_run(runs[3], sevens_ref, 7, 7, 7, 2));
    runs[0].worker = 1;
    WANT(timers_poll_many(&slot, 9, runs, 1, &begun) == TIMERS_BUSY && begun == 0 && state_of(&slot).now == 5);
    runs[0].worker = 4;
    WANT(timers_poll_many(&slot, 9, runs, 1, &begun) == TIMERS_NO_WORKER && begun == 0 && is_run(runs[0], two, 0, 1, 71, 4));
    WANT(timers_poll_many(&slot, LONGEST + 1, runs + 2, 2, &begun) == TIMERS_TOO_FAR && begun == 0);
    runs[3].worker = 0;
    WANT(timers_poll_many(&slot, 9, runs + 2, 2, &begun) == TIMERS_BUSY && begun == 1 && is_run(runs[2], three, 0, 9, 72, 0));
    WANT(is_run(runs[3], sevens_ref, 7, 7, 7, 0) && says(&slot, "9 clock\n9 start 0 task 2 run 0 due 9\n"));
    begun = 7;
    WANT(timers_poll_many(&slot, 10, runs, 0, &begun) == TIMERS_DONE && begun == 0 && state_of(&slot).now == 9);
    timers_ref four = scheduled(&slot, 20, 0, 73);
    runs[0].worker = 2;
    WANT(timers_poll_many(&slot, 1, runs, 1, &begun) == TIMERS_DONE && begun == 1 && is_run(runs[0], four, 0, 20, 73, 2));
    WANT(timers_free(&slot) == TIMERS_DONE);
}

/* Finishes of many workers, until one is refused. */
static void finishes_of_many(void) {
    timers_slot slot = made(3);
    timers_run run = sevens_run;
    timers_end ends[3] = {sevens_end, sevens_end, sevens_end};
    timers_ref tasks[3] = {scheduled(&slot, 0, 0, 70), scheduled(&slot, 0, 0, 71), scheduled(&slot, 0, 0, 72)};
    size_t ended = 7;
    for (uint32_t worker = 0; worker < 3; worker++) WANT(timers_poll(&slot, 1, worker, &run) == TIMERS_DONE);
    const timers_ending wrong[3] = {{5, 2, 0}, {UINT64_C(1) << 32, 1, 1}, {5, 0, 0}};
    WANT(timers_finish_many(&slot, 2, wrong, ends, 3, &ended) == TIMERS_ILLEGAL && ended == 1);
    WANT(is_end(ends[0], tasks[2], 0, 72, TIMERS_OUTCOME_DONE, 5) && is_end(ends[1], sevens_ref, 7, 7, 7, 7));
    WANT(says(&slot, "2 clock\n2 finish 2 task 2 run 0 done 5\n"));
    const timers_ending again[1] = {{5, 2, 0}}, nobody[1] = {{5, 3, 0}};
    WANT(timers_finish_many(&slot, 3, again, ends, 1, &ended) == TIMERS_NOT_RUNNING && ended == 0);
    WANT(timers_finish_many(&slot, 3, nobody, ends, 1, &ended) == TIMERS_NO_WORKER && ended == 0);
    WANT(is_end(ends[0], tasks[2], 0, 72, TIMERS_OUTCOME_DONE, 5) && state_of(&slot).now == 2);
    const timers_ending good[2] = {{UINT32_MAX, 1, 2}, {UINT64_C(1) << 32, 0, 0}};
    WANT(timers_finish_many(&slot, LONGEST + 1, good, ends, 2, &ended) == TIMERS_TOO_FAR && ended == 0);
    WANT(timers_finish_many(&slot, 3, good, ends, 2, &ended) == TIMERS_DONE && ended == 2);
    WANT(is_end(ends[0], tasks[1], 0, 71, TIMERS_OUTCOME_FAILED, UINT32_MAX));
    WANT(is_end(ends[1], tasks[0], 0, 70, TIMERS_OUTCOME_DONE, UINT64_C(1) << 32));
    ended = 7;
    WANT(timers_finish_many(&slot, 4, good, ends, 0, &ended) == TIMERS_DONE && ended == 0 && state_of(&slot).now == 3);
    WANT(says(&slot, "3 clock\n3 finish 0 task 0 run 0 done 4294967296\n") && timers_free(&slot) == TIMERS_DONE);
}

/* Cancels of a task that waits: it is kept until a poll meets it, or leaves at once. */
static void cancels_of_waiting(void) {
    timers_slot slot = made(1);
    timers_run run = sevens_run;
    timers_end end = sevens_end;
    timers_task task = sevens_task;
    timers_ref kept = scheduled(&slot, 0, 4, 70), tie = scheduled(&slot, 0, 4, 71), behind = scheduled(&slot, 0, 4, 72);
    timers_ref forged = {kept.number, tie.slot};
    uint32_t effect = 7;
    uint64_t due;
    WANT(timers_cancel(&slot, (timers_ref){3, 0}, &effect) == TIMERS_NO_TASK && effect == 0);
    WANT(says(&slot, "0 submit 2 schedule due 4\n"));
    WANT(timers_cancel(&slot, kept, &effect) == TIMERS_DONE && effect == TIMERS_CANCEL_YES && says(&slot, "0 outside 0 yes\n"));
    WANT(timers_cancel(&slot, behind, &effect) == TIMERS_DONE && effect == TIMERS_CANCEL_YES);
    WANT(timers_cancel(&slot, forged, &effect) == TIMERS_DONE && effect == TIMERS_CANCEL_NO && says(&slot, "0 outside 0 no\n"));
    WANT(timers_task_of(&slot, forged, &task) == TIMERS_DONE && is_task(task, TIMERS_TASK_KEPT, 1, 0, 4));
    WANT(timers_next_due(&slot, &due) == TIMERS_DONE && due == 4 && state_of(&slot).alive == 3);
    WANT(timers_poll(&slot, 3, 0, &run) == TIMERS_IDLE && state_of(&slot).alive == 3);
    WANT(timers_poll(&slot, 4, 0, &run) == TIMERS_DONE && is_run(run, tie, 0, 4, 71, 0) && state_of(&slot).alive == 2);
    WANT(timers_task_of(&slot, kept, &task) == TIMERS_DONE && is_task(task, TIMERS_TASK_GONE, 0, 0, 0));
    WANT(timers_task_of(&slot, behind, &task) == TIMERS_DONE && is_task(task, TIMERS_TASK_KEPT, 1, 0, 4));
    WANT(timers_finish(&slot, 4, 0, 1, &end) == TIMERS_DONE && timers_next_due(&slot, &due) == TIMERS_IDLE);
    WANT(timers_poll(&slot, 4, 0, &run) == TIMERS_IDLE && state_of(&slot).alive == 0);
    WANT(timers_set_policy(&slot, 4, TIMERS_POLICY_REMOVE, true) == TIMERS_DONE && says(&slot, "5 policy remove true\n"));
    timers_ref removed = scheduled(&slot, 5, 4, 73);
    WANT(timers_cancel(&slot, removed, &effect) == TIMERS_DONE && effect == TIMERS_CANCEL_YES && state_of(&slot).alive == 0);
    WANT(timers_task_of(&slot, removed, &task) == TIMERS_DONE && is_task(task, TIMERS_TASK_GONE, 0, 0, 0));
    WANT(timers_cancel(&slot, removed, &effect) == TIMERS_DONE && effect == TIMERS_CANCEL_NO && says(&slot, "5 outside 3 no\n"));
    WANT(timers_free(&slot) == TIMERS_DONE);
}

/* Purges: each task that is kept leaves the queue, and no other; and the head of the queue. */
static void purges(void) {
    timers_slot slot = made(1);
    timers_task task = sevens_task;
    timers_ref kept = scheduled(&slot, 0, 4, 70), waits = scheduled(&slot, 0, 5, 71), late = scheduled(&slot, 0, 6, 72);
    uint32_t effect = 7, first = 7;
    uint64_t due = 7;
    WANT(timers_purge(&slot) == TIMERS_DONE && says(&slot, "0 purge\n") && state_of(&slot).alive == 3);
    WANT(timers_cancel(&slot, kept, &effect) == TIMERS_DONE && timers_cancel(&slot, late, &effect) == TIMERS_DONE);
    WANT(timers_head_due(&slot, &due) == TIMERS_DONE && due == 4);
    WANT(timers_next_due(&slot, &due) == TIMERS_DONE && due == 5 && says(&slot, "0 outside 2 yes\n"));
    WANT(timers_purge(&slot) == TIMERS_DONE && says(&slot, "0 purge\n") && state_of(&slot).alive == 1);
    WANT(timers_task_of(&slot, kept, &task) == TIMERS_DONE && is_task(task, TIMERS_TASK_GONE, 0, 0, 0));
    WANT(timers_task_of(&slot, waits, &task) == TIMERS_DONE && is_task(task, TIMERS_TASK_WAITING, 0, 0, 5));
    WANT(timers_head_due(&slot, &due) == TIMERS_DONE && due == 5);
    WANT(timers_shutdown(&slot, 1, &first) == TIMERS_DONE && timers_cancel(&slot, waits, &effect) == TIMERS_DONE);
    WANT(state_of(&slot).alive == 1 && timers_purge(&slot) == TIMERS_DONE && says(&slot, "1 purge\n"));
    WANT(state_of(&slot).terminated && timers_head_due(&slot, &due) == TIMERS_IDLE && due == 0 && says(&slot, "1 purge\n"));
    WANT(timers_free(&slot) == TIMERS_DONE);
}

/* Cancels of a task that is run, and of one that is over, whoever has its slot then. */
static void cancels_of_others(void) {
    timers_slot slot = made(2);
    timers_run run = sevens_run;
    timers_end end = sevens_end;
    timers_task task = sevens_task;
    timers_ref rate, once = scheduled(&slot, 0, 2, 70);
    uint32_t effect = 7;
    WANT(timers_rate(&slot, 0, 2, 5, 71, &rate) == TIMERS_DONE);
    WANT(timers_poll(&slot, 2, 0, &run) == TIMERS_DONE && timers_poll(&slot, 2, 1, &run) == TIMERS_DONE);
    WANT(timers_task_of(&slot, rate, &task) == TIMERS_DONE && is_task(task, TIMERS_TASK_RUNNING, 0, 0, 2));
    WANT(timers_cancel(&slot, rate, &effect) == TIMERS_DONE && effect == TIMERS_CANCEL_YES && says(&slot, "2 outside 1 yes\n"));
    WANT(timers_task_of(&slot, rate, &task) == TIMERS_DONE && is_task(task, TIMERS_TASK_RUNNING, 1, 0, 2));
    WANT(timers_cancel(&slot, rate, &effect) == TIMERS_DONE && effect == TIMERS_CANCEL_NO);
    WANT(timers_fail(&slot, 3, 1, 9, &end) == TIMERS_DONE && is_end(end, rate, 0, 71, TIMERS_OUTCOME_DROPPED, 0));
    WANT(says(&slot, "3 clock\n3 finish 1 task 1 run 0 dropped\n"));
    WANT(timers_cancel(&slot, once, &effect) == TIMERS_DONE && effect == TIMERS_CANCEL_YES);
    WANT(timers_finish(&slot, 3, 0, 9, &end) == TIMERS_DONE && is_end(end, once, 0, 70, TIMERS_OUTCOME_DROPPED, 0));
    timers_ref next = scheduled(&slot, 5, 3, 72), more = scheduled(&slot, 5, 3, 73);
    WANT(timers_cancel(&slot, (timers_ref){once.number, next.slot}, &effect) == TIMERS_DONE && effect == TIMERS_CANCEL_NO);
    WANT(timers_cancel(&slot, rate, &effect) == TIMERS_DONE && effect == TIMERS_CANCEL_NO);
    WANT(timers_task_of(&slot, once, &task) == TIMERS_DONE && is_task(task, TIMERS_TASK_GONE, 0, 0, 0));
    WANT(timers_task_of(&slot, (timers_ref){4, next.slot}, &task) == TIMERS_NO_TASK && is_task(task, 0, 0, 0, 0));
    WANT(timers_cancel(&slot, (timers_ref){more.number, next.slot}, &effect) == TIMERS_DONE && effect == TIMERS_CANCEL_YES);
    WANT(timers_task_of(&slot, next, &task) == TIMERS_DONE && is_task(task, TIMERS_TASK_WAITING, 0, 0, 8));
    WANT(timers_free(&slot) == TIMERS_DONE);
}

/* The policies, before a shutdown. */
static void policies(void) {
    timers_slot slot = made(1);
    WANT(state_of(&slot).policies == 1u << TIMERS_POLICY_EXECUTE);
    WANT(timers_set_policy(&slot, LONGEST + 1, 3, true) == TIMERS_ILLEGAL);
    WANT(timers_set_policy(&slot, 1, UINT32_MAX, false) == TIMERS_ILLEGAL);
    WANT(timers_set_policy(&slot, LONGEST + 1, 0, true) == TIMERS_TOO_FAR && state_of(&slot).lines == 0);
    scheduled(&slot, 0, 9, 70);
    WANT(timers_set_policy(&slot, 1, TIMERS_POLICY_CONTINUE, true) == TIMERS_DONE && says(&slot, "1 policy continue true\n"));
    WANT(timers_set_policy(&slot, 2, TIMERS_POLICY_EXECUTE, false) == TIMERS_DONE && says(&slot, "2 policy execute false\n"));
    WANT(timers_set_policy(&slot, 2, TIMERS_POLICY_REMOVE, true) == TIMERS_DONE && state_of(&slot).policies == 5);
    WANT(state_of(&slot).alive == 1);
    WANT(timers_set_policy(&slot, 2, TIMERS_POLICY_CONTINUE, false) == TIMERS_DONE && state_of(&slot).policies == 4);
    WANT(timers_free(&slot) == TIMERS_DONE);
}

/* Timers with one task of each sort: one that is due, one that is not, two that are periodic and one that is kept. */
static timers_slot assorted(timers_ref tasks[5]) {
    timers_slot slot = made(1);
    uint32_t effect = 7;
    tasks[0] = scheduled(&slot, 0, 3, 70);
    WANT(timers_rate(&slot, 0, 3, 10, 71, &tasks[1]) == TIMERS_DONE);
    tasks[2] = scheduled(&slot, 0, 9, 72);
    WANT(timers_fixed(&slot, 0, 9, 10, 73, &tasks[3]) == TIMERS_DONE);
    tasks[4] = scheduled(&slot, 0, 9, 74);
    WANT(timers_cancel(&slot, tasks[4], &effect) == TIMERS_DONE && state_of(&slot).alive == 5);
    return slot;
}

/* Whether the last call ended these tasks alone, of data from 70 on. */
static bool ended(timers_slot *slot, const timers_ref *tasks, const size_t *places, size_t n) {
    timers_gone gone = sevens_gone;
    bool good = state_of(slot).ended == n && state_of(slot).lines == n + 1;
    for (size_t place = 0; place < n; place++)
        good = good && timers_ended(slot, place, &gone) == TIMERS_DONE && is_gone(gone, tasks[places[place]], 70 + places[place]);
    good = good && timers_ended(slot, n, &gone) == TIMERS_IDLE && is_gone(gone, no_task, 0);
    return good && timers_ended(slot, SIZE_MAX, &gone) == TIMERS_IDLE;
}

/* An orderly shutdown, and policies that are set after it. */
static void shutdowns(void) {
    static const size_t periodic[] = {1, 3}, later[] = {2};
    timers_ref tasks[5];
    timers_slot slot = assorted(tasks);
    timers_counts counts = sevens_counts;
    timers_task task = sevens_task;
    uint32_t first = 7, effect;
    WANT(timers_shutdown(&slot, 4, &first) == TIMERS_DONE && first == 1 && says(&slot, "4 shutdown\n4 end 1\n4 end 3\n"));
    WANT(ended(&slot, tasks, periodic, 2) && state_of(&slot).alive == 2 && state_of(&slot).shut && !state_of(&slot).terminated);
    WANT(timers_cancel(&slot, tasks[1], &effect) == TIMERS_DONE && effect == TIMERS_CANCEL_NO && ended(&slot, tasks, NULL, 0));
    WANT(timers_task_of(&slot, tasks[4], &task) == TIMERS_DONE && is_task(task, TIMERS_TASK_GONE, 0, 0, 0));
    WANT(timers_shutdown(&slot, 4, &first) == TIMERS_DONE && first == 0 && says(&slot, "4 shutdown again\n"));
    WANT(timers_set_policy(&slot, 5, TIMERS_POLICY_EXECUTE, true) == TIMERS_DONE && says(&slot, "5 policy execute true\n"));
    WANT(timers_set_policy(&slot, 5, TIMERS_POLICY_EXECUTE, false) == TIMERS_DONE);
    WANT(says(&slot, "5 policy execute false\n5 end 2\n"));
    WANT(ended(&slot, tasks, later, 1) && timers_set_policy(&slot, LONGEST + 1, 0, false) == TIMERS_TOO_FAR);
    WANT(ended(&slot, tasks, later, 1));
    WANT(timers_ask(&slot, 5, &counts) == TIMERS_DONE && are_counts(counts, 1, 0, 1, 0));
    WANT(timers_shutdown_now(&slot, 6) == TIMERS_DONE && says(&slot, "6 shutdown now\n6 end 0\n"));
    WANT(timers_shutdown_now(&slot, 6) == TIMERS_DONE && says(&slot, "6 shutdown now\n") && state_of(&slot).terminated == 1);
    WANT(timers_ask(&slot, 7, &counts) == TIMERS_DONE && are_counts(counts, 0, 0, 1, 1));
    WANT(says(&slot, "7 ask queue 0 running 0 shutdown yes terminated yes\n") && timers_free(&slot) == TIMERS_DONE);
}

/* A shutdown where the policies let all run on, or nothing that is not due. */
static void shutdowns_by_policy(void) {
    static const size_t later[] = {2}, both[] = {1, 2, 3};
    timers_ref tasks[5];
    timers_slot slot = assorted(tasks);
    uint32_t first = 7;
    WANT(timers_set_policy(&slot, 1, TIMERS_POLICY_CONTINUE, true) == TIMERS_DONE);
    WANT(timers_shutdown(&slot, 4, &first) == TIMERS_DONE && ended(&slot, tasks, NULL, 0) && state_of(&slot).alive == 4);
    WANT(timers_set_policy(&slot, 4, TIMERS_POLICY_REMOVE, false) == TIMERS_DONE && ended(&slot, tasks, NULL, 0));
    WANT(timers_set_policy(&slot, 4, TIMERS_POLICY_EXECUTE, false) == TIMERS_DONE && ended(&slot, tasks, later, 1));
    WANT(timers_free(&slot) == TIMERS_DONE);
    slot = assorted(tasks);
    WANT(timers_set_policy(&slot, 1, TIMERS_POLICY_EXECUTE, false) == TIMERS_DONE);
    WANT(timers_shutdown(&slot, 3, &first) == TIMERS_DONE && ended(&slot, tasks, both, 3));
    WANT(says(&slot, "3 shutdown\n3 end 1\n3 end 2\n3 end 3\n"));
    WANT(state_of(&slot).alive == 1 && timers_free(&slot) == TIMERS_DONE);
}

/* A task that is cancelled after a shutdown is kept: only a call that sweeps takes it out. Timers with a run under way go on. */
static void kept_after_shutdowns(void) {
    timers_slot slot = made(1);
    timers_ref once = scheduled(&slot, 0, 1, 70), kept = scheduled(&slot, 0, 9, 71);
    timers_run run = sevens_run;
    timers_end end = sevens_end;
    timers_counts counts = sevens_counts;
    timers_task task = sevens_task;
    uint32_t first = 7, effect = 7;
    WANT(timers_poll(&slot, 1, 0, &run) == TIMERS_DONE && timers_shutdown(&slot, 2, &first) == TIMERS_DONE && first == 1);
    WANT(timers_cancel(&slot, kept, &effect) == TIMERS_DONE && effect == TIMERS_CANCEL_YES && state_of(&slot).alive == 2);
    WANT(timers_shutdown(&slot, 2, &first) == TIMERS_DONE && first == 0);
    WANT(timers_set_policy(&slot, 2, TIMERS_POLICY_REMOVE, false) == TIMERS_DONE);
    WANT(timers_set_policy(&slot, 2, TIMERS_POLICY_EXECUTE, true) == TIMERS_DONE);
    WANT(timers_set_policy(&slot, 2, TIMERS_POLICY_CONTINUE, true) == TIMERS_DONE && state_of(&slot).alive == 2);
    WANT(timers_task_of(&slot, kept, &task) == TIMERS_DONE && is_task(task, TIMERS_TASK_KEPT, 1, 0, 9));
    WANT(timers_set_policy(&slot, 2, TIMERS_POLICY_CONTINUE, false) == TIMERS_DONE && says(&slot, "2 policy continue false\n"));
    WANT(timers_task_of(&slot, kept, &task) == TIMERS_DONE && is_task(task, TIMERS_TASK_GONE, 0, 0, 0));
    WANT(state_of(&slot).alive == 1 && !state_of(&slot).terminated);
    WANT(timers_ask(&slot, 2, &counts) == TIMERS_DONE && are_counts(counts, 0, 1, 1, 0));
    WANT(says(&slot, "2 ask queue 0 running 1 shutdown yes terminated no\n"));
    WANT(timers_finish(&slot, 3, 0, 9, &end) == TIMERS_DONE && is_end(end, once, 0, 70, TIMERS_OUTCOME_DONE, 9));
    WANT(state_of(&slot).terminated && timers_free(&slot) == TIMERS_DONE);
}

/* What becomes of runs that are under way at a shutdown. */
static void runs_at_shutdowns(void) {
    static const uint32_t outcomes[] = {TIMERS_OUTCOME_ENDED, TIMERS_OUTCOME_AGAIN, TIMERS_OUTCOME_ENDED};
    static const uint64_t values[] = {0, 15, 0};
    for (size_t way = 0; way < 3; way++) {
        timers_slot slot = made(2);
        timers_ref rate, once = scheduled(&slot, 0, 5, 70);
        timers_run run = sevens_run;
        timers_end end = sevens_end;
        uint32_t first = 7;
        WANT(timers_rate(&slot, 0, 5, 10, 71, &rate) == TIMERS_DONE);
        WANT(timers_set_policy(&slot, 0, TIMERS_POLICY_CONTINUE, way > 0) == TIMERS_DONE);
        WANT(timers_poll(&slot, 5, 0, &run) == TIMERS_DONE && timers_poll(&slot, 5, 1, &run) == TIMERS_DONE);
        WANT((way < 2 ? timers_shutdown(&slot, 6, &first) : timers_shutdown_now(&slot, 6)) == TIMERS_DONE);
        WANT(state_of(&slot).ended == 0);
        WANT(timers_finish(&slot, 7, 0, 9, &end) == TIMERS_DONE && is_end(end, once, 0, 70, TIMERS_OUTCOME_DONE, 9));
        WANT(timers_finish(&slot, 7, 1, 9, &end) == TIMERS_DONE && is_end(end, rate, 0, 71, outcomes[way], values[way]));
        if (way != 1) WANT(says(&slot, "7 clock\n7 finish 1 task 1 run 0 ended\n"));
        WANT(state_of(&slot).terminated == (way != 1) && timers_free(&slot) == TIMERS_DONE);
    }
}

/* The lines of a call in parts, as the room lets them. */
static void lines(void) {
    timers_slot slot = made(1);
    uint8_t out[2 * TIMERS_LINE_ROOM];
    timers_copied copied;
    for (uint64_t number = 0; number < 3; number++) scheduled(&slot, 0, 9, number);
    WANT(timers_shutdown_now(&slot, 1) == TIMERS_DONE && says(&slot, "1 shutdown now\n1 end 0\n1 end 1\n1 end 2\n"));
    memset(out, 7, sizeof out);
    WANT(timers_text(&slot, 0, out, TIMERS_LINE_ROOM - 1, &copied) == TIMERS_DONE && copied.lines == 0 && copied.bytes == 0);
    WANT(out[0] == 7);
    WANT(timers_text(&slot, 0, out, TIMERS_LINE_ROOM, &copied) == TIMERS_DONE && copied.lines == 1 && copied.bytes == 15);
    WANT(memcmp(out, "1 shutdown now\n", 15) == 0);
    WANT(timers_text(&slot, 1, out, TIMERS_LINE_ROOM + 8, &copied) == TIMERS_DONE && copied.lines == 2 && copied.bytes == 16);
    WANT(memcmp(out, "1 end 0\n1 end 1\n", 16) == 0);
    WANT(timers_text(&slot, 3, out, sizeof out, &copied) == TIMERS_DONE && copied.lines == 1 && memcmp(out, "1 end 2\n", 8) == 0);
    WANT(timers_text(&slot, 4, out, sizeof out, &copied) == TIMERS_DONE && copied.lines == 0 && copied.bytes == 0);
    WANT(timers_text(&slot, SIZE_MAX, out, sizeof out, &copied) == TIMERS_DONE && copied.lines == 0);
    WANT(timers_free(&slot) == TIMERS_DONE);
}

/* The words of each status. */
static void in_words(void) {
    for (timers_status one = TIMERS_DONE; one <= TIMERS_NUMBER; one++)
        for (timers_status other = TIMERS_DONE; other < one; other++)
            WANT(strcmp(timers_status_text(one), timers_status_text(other)) != 0);
    WANT(strcmp(timers_status_text(TIMERS_BUSY), "the worker has a run under way") == 0);
    WANT(strcmp(timers_status_text(TIMERS_NUMBER + 1), "no such status") == 0);
    WANT(strcmp(timers_status_text(UINT32_MAX), "no such status") == 0);
}

/* A thousand tasks in mixed order, of which each third is cancelled: the others leave by moment, and at one moment by number. */
static void in_order(void) {
    enum { TASKS = 1000 };
    static timers_ref tasks[TASKS];
    timers_slot slot = made(1);
    timers_run run, before = {{0, 0}, 0, 0, 0, 0};
    timers_end end = sevens_end;
    uint32_t effect = 7;
    int left = 0;
    for (uint64_t number = 0; number < TASKS; number++) tasks[number] = scheduled(&slot, 0, number * 7919 % 100, 5 * number);
    for (size_t number = 0; number < TASKS; number += 3)
        WANT(timers_cancel(&slot, tasks[number], &effect) == TIMERS_DONE && effect == TIMERS_CANCEL_YES);
    for (; timers_poll(&slot, 100, 0, &run) == TIMERS_DONE; left++) {
        WANT(left == 0 || before.due < run.due || (before.due == run.due && before.task.number < run.task.number));
        WANT(run.task.number % 3 != 0 && is_ref(run.task, run.task.number, tasks[run.task.number].slot));
        WANT(run.data == 5 * run.task.number);
        WANT(timers_finish(&slot, 100, 0, 1, &end) == TIMERS_DONE && end.data == run.data);
        before = run;
    }
    WANT(left == TASKS - 334 && state_of(&slot).alive == 0 && timers_free(&slot) == TIMERS_DONE);
}

/* Submits a task, and, where memory was refused, finds all as it was, and submits it again. */
static timers_ref pressed(timers_slot *slot, uint64_t number) {
    timers_state before = state_of(slot);
    timers_ref task = sevens_ref;
    met = false;
    timers_status status = timers_schedule(slot, number, 100 - number, number, &task);
    long left = refused;
    refused = 0;
    WANT(status == (met ? TIMERS_NO_MEMORY : TIMERS_DONE));
    if (status == TIMERS_NO_MEMORY) {
        timers_state after = state_of(slot);
        WANT(is_ref(task, 0, 0) && after.numbers == before.numbers && after.alive == before.alive && after.now == before.now);
        WANT(after.lines == before.lines);
        task = scheduled(slot, number, 100 - number, number);
    } else {
        refused = left;
    }
    WANT(task.number == number);
    return task;
}

/* The calls that ask for no memory, while all of it is refused, of timers with 64 tasks that are due at 100. */
static void without_memory(timers_slot *slot, timers_ref first, timers_ref last) {
    timers_run run = sevens_run;
    timers_end end = sevens_end;
    timers_counts counts = sevens_counts;
    timers_task task = sevens_task;
    timers_gone gone = sevens_gone;
    timers_copied copied;
    uint8_t out[TIMERS_LINE_ROOM];
    uint64_t due;
    uint32_t word;
    size_t many;
    met = false;
    refused = -1;
    WANT(timers_cancel(slot, last, &word) == TIMERS_DONE && timers_poll(slot, 100, 0, &run) == TIMERS_DONE);
    WANT(timers_finish(slot, 100, 0, 1, &end) == TIMERS_DONE && timers_poll_many(slot, 100, &run, 1, &many) == TIMERS_DONE);
    WANT(timers_fail(slot, 100, 0, 1, &end) == TIMERS_DONE && timers_next_due(slot, &due) == TIMERS_DONE);
    WANT(timers_poll(slot, 100, 0, &run) == TIMERS_DONE);
    const timers_ending ending = {1, 0, 0};
    WANT(timers_finish_many(slot, 100, &ending, &end, 1, &many) == TIMERS_DONE);
    WANT(timers_task_of(slot, first, &task) == TIMERS_DONE && timers_ask(slot, 101, &counts) == TIMERS_DONE && counts.queue == 61);
    WANT(timers_purge(slot) == TIMERS_DONE && timers_head_due(slot, &due) == TIMERS_DONE && due == 100);
    WANT(timers_schedule(slot, 101, 1, 1, &first) == TIMERS_DONE && timers_set_policy(slot, 101, 1, false) == TIMERS_DONE);
    WANT(timers_shutdown(slot, 101, &word) == TIMERS_DONE && timers_schedule(slot, 101, 1, 1, &first) == TIMERS_SHUT);
    WANT(timers_shutdown_now(slot, 101) == TIMERS_DONE && state_of(slot).ended == 60);
    WANT(timers_ended(slot, 59, &gone) == TIMERS_DONE);
    WANT(timers_text(slot, 60, out, sizeof out, &copied) == TIMERS_DONE && copied.lines == 1);
    refused = 0;
    WANT(!met && state_of(slot).terminated);
}

/* Makes timers and 64 tasks with each growth refused in turn, until one asks for fewer. Answers how many were refused. */
static long with_growths_refused(void) {
    for (long number = 1;; number++) {
        timers_slot slot = TIMERS_EMPTY;
        timers_ref tasks[64];
        met = false;
        refused = number;
        timers_status status = timers_new(&slot, 1);
        long left = refused;
        refused = 0;
        WANT(status == (met ? TIMERS_NO_MEMORY : TIMERS_DONE));
        if (status == TIMERS_NO_MEMORY) {
            WANT(slot.hidden == NULL && !slot.full && blocks == 0 && timers_new(&slot, 1) == TIMERS_DONE);
            left = 0;
        }
        refused = left;
        for (uint64_t task = 0; task < 64; task++) tasks[task] = pressed(&slot, task);
        bool all = refused > 0;
        refused = 0;
        without_memory(&slot, tasks[0], tasks[63]);
        WANT(blocks > 0 && timers_free(&slot) == TIMERS_DONE && blocks == 0);
        if (all) return number - 1;
    }
}

/* Reserves slots with each growth refused in turn. Answers how many were refused. */
static long with_reserve_refused(void) {
    for (long number = 1;; number++) {
        timers_slot slot = made(1);
        met = false;
        refused = number;
        timers_status status = timers_reserve(&slot, 64);
        refused = 0;
        WANT(status == (met ? TIMERS_NO_MEMORY : TIMERS_DONE) && state_of(&slot).lines == 0 && state_of(&slot).now == 0);
        bool all = !met;
        if (!all) WANT(timers_reserve(&slot, 64) == TIMERS_DONE);
        met = false;
        refused = -1;
        WANT(timers_reserve(&slot, 64) == TIMERS_DONE && timers_reserve(&slot, 0) == TIMERS_DONE);
        for (uint64_t task = 0; task < 64; task++) scheduled(&slot, 0, 64 - task, task);
        refused = 0;
        WANT(!met && timers_free(&slot) == TIMERS_DONE && blocks == 0);
        if (all) return number - 1;
    }
}

/* A number that no line can tell, of a submission that is rejected. */
static void far_number(void) {
    timers_slot slot = made(1);
    timers_ref task = sevens_ref;
    timers_copied copied = {7, 7};
    timers_run run = sevens_run;
    uint8_t out[TIMERS_LINE_ROOM] = {7};
    uint32_t first = 7, effect = 7;
    WANT(timers_shutdown(&slot, 0, &first) == TIMERS_DONE);
    while (timers_schedule(&slot, 1, 1, 1, &task) == TIMERS_SHUT && task.number < UINT32_MAX) continue;
    WANT(task.number == UINT32_MAX && says(&slot, "1 refuse 4294967295 rejected\n"));
    WANT(timers_schedule(&slot, 1, 1, 1, &task) == TIMERS_SHUT && is_ref(task, UINT64_C(1) << 32, UINT32_MAX));
    WANT(timers_text(&slot, 0, out, sizeof out, &copied) == TIMERS_NUMBER && copied.lines == 0 && copied.bytes == 0 && out[0] == 7);
    WANT(timers_poll(&slot, 2, 0, &run) == TIMERS_IDLE && says(&slot, "2 clock\n2 start 0 idle\n"));
    WANT(timers_cancel(&slot, task, &effect) == TIMERS_DONE && effect == TIMERS_CANCEL_NONE);
    WANT(timers_text(&slot, 0, out, sizeof out, &copied) == TIMERS_NUMBER && timers_free(&slot) == TIMERS_DONE);
}

/* Many tasks are alive, and no submission wants memory where there is some; nor does room for a million tasks and more. */
static void many_alive(void) {
    timers_slot slot = made(1);
    timers_ref task;
    for (uint64_t number = 0; number < 70000; number++) {
        if (timers_schedule(&slot, 0, 70000 - number, number, &task) != TIMERS_DONE || task.number != number) {
            WANT(!"each of them is accepted");
            break;
        }
    }
    WANT(state_of(&slot).alive == 70000);
    WANT(timers_reserve(&slot, (1 << 20) + 1) == TIMERS_DONE);
    timers_run run;
    WANT(timers_poll(&slot, 70001, 0, &run) == TIMERS_DONE && run.data == 69999);
    WANT(timers_free(&slot) == TIMERS_DONE);
}

int main(int count, char **words) {
    submissions_without_timers();
    looks_without_timers();
    with_null();
    workers();
    submissions();
    submissions_refused();
    rejected();
    moments();
    polls();
    finishes();
    polls_of_many();
    finishes_of_many();
    cancels_of_waiting();
    purges();
    cancels_of_others();
    policies();
    shutdowns();
    shutdowns_by_policy();
    kept_after_shutdowns();
    runs_at_shutdowns();
    lines();
    in_words();
    in_order();
    many_alive();
    WANT(blocks == 0);
    long growths = with_growths_refused(), reserved = with_reserve_refused();
    WANT(growths > 0 && reserved > 0);
    if (count == 2 && strcmp(words[1], "far") == 0) far_number();
    if (faults == 0) printf("each answer came, and %ld growths were refused\n", growths + reserved);
    return faults != 0;
}
