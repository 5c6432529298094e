/* Each answer of each call, and each growth refused in turn. tools/bindings builds and runs it. */
#include "delay_queue.h"
#include "growths.h"
#include <inttypes.h>
#include <stdio.h>
#include <stdlib.h>
#include <string.h>

static int faults;

#define WANT(test) do { if (!(test)) { fprintf(stderr, "line %d: not so: %s\n", __LINE__, #test); faults++; } } while (0)

static void without_a_queue(void) {
    dq_slot slot = DQ_EMPTY;
    dq_entry entry = {7, 7};
    uint64_t number = 7;
    size_t count = 7;
    WANT(dq_free(&slot) == DQ_NO_QUEUE);
    WANT(dq_try_insert(&slot, 1, 0) == DQ_NO_QUEUE);
    WANT(dq_poll(&slot, 1, &entry) == DQ_NO_QUEUE);
    WANT(dq_peek(&slot, &entry) == DQ_NO_QUEUE);
    WANT(dq_remove(&slot, 0) == DQ_NO_QUEUE);
    WANT(dq_due_of(&slot, 0, &number) == DQ_NO_QUEUE);
    WANT(dq_contains(&slot, 0) == DQ_NO_QUEUE);
    WANT(dq_len(&slot, &count) == DQ_NO_QUEUE);
    WANT(dq_touched(&slot, &number) == DQ_NO_QUEUE);
    WANT(entry.due == 7 && entry.task == 7 && number == 7 && count == 7);
    WANT(dq_insert_many(&slot, &entry, 1, &count) == DQ_NO_QUEUE && count == 0);
    count = 7;
    WANT(dq_poll_many(&slot, 1, &entry, 1, &count) == DQ_NO_QUEUE && count == 0);
    WANT(slot.hidden == NULL && !slot.full);
}

static void with_null(void) {
    dq_slot slot = DQ_EMPTY;
    dq_entry entry = {1, 0};
    size_t count = 7;
    WANT(dq_new(NULL, 1) == DQ_NULL && dq_free(NULL) == DQ_NULL);
    WANT(dq_new(&slot, 1) == DQ_DONE);
    WANT(dq_try_insert(NULL, 1, 0) == DQ_NULL);
    WANT(dq_poll(NULL, 1, &entry) == DQ_NULL && dq_poll(&slot, 1, NULL) == DQ_NULL);
    WANT(dq_peek(NULL, &entry) == DQ_NULL && dq_peek(&slot, NULL) == DQ_NULL);
    WANT(dq_remove(NULL, 0) == DQ_NULL && dq_contains(NULL, 0) == DQ_NULL);
    WANT(dq_due_of(NULL, 0, &entry.due) == DQ_NULL && dq_due_of(&slot, 0, NULL) == DQ_NULL);
    WANT(dq_len(NULL, &count) == DQ_NULL && dq_len(&slot, NULL) == DQ_NULL);
    WANT(dq_touched(NULL, &entry.due) == DQ_NULL && dq_touched(&slot, NULL) == DQ_NULL);
    WANT(dq_insert_many(NULL, &entry, 1, &count) == DQ_NULL && dq_insert_many(&slot, &entry, 1, NULL) == DQ_NULL);
    WANT(dq_insert_many(&slot, NULL, 1, &count) == DQ_NULL && count == 7);
    WANT(dq_insert_many(&slot, NULL, 0, &count) == DQ_DONE && count == 0);
    WANT(dq_poll_many(NULL, 1, &entry, 1, &count) == DQ_NULL && dq_poll_many(&slot, 1, &entry, 1, NULL) == DQ_NULL);
    count = 7;
    WANT(dq_poll_many(&slot, 1, NULL, 1, &count) == DQ_NULL && count == 7);
    WANT(dq_poll_many(&slot, 1, NULL, 0, &count) == DQ_DONE && count == 0);
    WANT(dq_len(&slot, &count) == DQ_DONE && count == 0);
    WANT(dq_free(&slot) == DQ_DONE);
}

static void with_a_queue(void) {
    dq_slot slot = DQ_EMPTY;
    dq_entry entry = {0, 0}, many[3] = {{4, 0}, {UINT64_MAX, 1}, {1, 3}}, out[4];
    uint64_t number = 0;
    size_t count = 0;
    WANT(dq_new(&slot, 3) == DQ_DONE && dq_new(&slot, 9) == DQ_HAS_QUEUE);
    WANT(dq_peek(&slot, &entry) == DQ_NO_ENTRY && dq_poll(&slot, UINT64_MAX, &entry) == DQ_NO_ENTRY);
    WANT(dq_insert_many(&slot, many, 3, &count) == DQ_UNKNOWN_TASK && count == 2);
    WANT(dq_insert_many(&slot, many + 1, 2, &count) == DQ_HAS_ENTRY && count == 0);
    WANT(dq_contains(&slot, 2) == DQ_NO_ENTRY && dq_due_of(&slot, 2, &number) == DQ_NO_ENTRY && number == 0);
    WANT(dq_try_insert(&slot, 5, 1) == DQ_HAS_ENTRY && dq_try_insert(&slot, 5, UINT32_MAX) == DQ_UNKNOWN_TASK);
    WANT(dq_try_insert(&slot, 4, 2) == DQ_DONE && dq_len(&slot, &count) == DQ_DONE && count == 3);
    WANT(dq_due_of(&slot, 1, &number) == DQ_DONE && number == UINT64_MAX);
    WANT(dq_due_of(&slot, 3, &number) == DQ_NO_ENTRY && number == UINT64_MAX);
    WANT(dq_contains(&slot, 2) == DQ_DONE && dq_contains(&slot, 3) == DQ_NO_ENTRY);
    WANT(dq_peek(&slot, &entry) == DQ_DONE && entry.due == 4 && entry.task == 0);
    entry.due = 9;
    WANT(dq_poll(&slot, 3, &entry) == DQ_NO_ENTRY && entry.due == 9 && entry.task == 0);
    memset(out, 9, sizeof out);
    WANT(dq_poll_many(&slot, 4, out, 4, &count) == DQ_DONE && count == 2 && out[0].task == 0 && out[1].task == 2);
    WANT(out[2].task == 0x09090909 && out[3].task == 0x09090909);
    WANT(dq_remove(&slot, 1) == DQ_DONE && dq_remove(&slot, 1) == DQ_NO_ENTRY && dq_remove(&slot, 3) == DQ_NO_ENTRY);
    dq_insert_unchecked(&slot, 6, 1);
    WANT(dq_poll(&slot, 6, &entry) == DQ_DONE && entry.due == 6 && entry.task == 1);
    WANT(dq_touched(&slot, &number) == DQ_DONE && number > 0);
    WANT(dq_free(&slot) == DQ_DONE && dq_free(&slot) == DQ_NO_QUEUE);
}

/* A slot that is full is told with no growth asked for, so with none refused. */
static void with_a_full_slot(void) {
    dq_slot slot = DQ_EMPTY;
    WANT(dq_new(&slot, 3) == DQ_DONE);
    met = false;
    refused = -1;
    dq_status status = dq_new(&slot, 9);
    refused = 0;
    WANT(status == DQ_HAS_QUEUE && !met);
    WANT(dq_try_insert(&slot, 1, 2) == DQ_DONE && dq_try_insert(&slot, 1, 3) == DQ_UNKNOWN_TASK);
    WANT(dq_free(&slot) == DQ_DONE && blocks == 0);
}

/* A queue for no task. */
static void without_tasks(void) {
    dq_slot slot = DQ_EMPTY;
    dq_entry entry = {7, 7};
    WANT(dq_new(&slot, 0) == DQ_DONE && dq_try_insert(&slot, 1, 0) == DQ_UNKNOWN_TASK);
    WANT(dq_poll(&slot, UINT64_MAX, &entry) == DQ_NO_ENTRY && entry.due == 7 && entry.task == 7);
    WANT(dq_free(&slot) == DQ_DONE);
}

/* The words of each status. */
static void in_words(void) {
    for (dq_status one = DQ_DONE; one <= DQ_NULL; one++)
        for (dq_status other = DQ_DONE; other < one; other++) WANT(strcmp(dq_status_text(one), dq_status_text(other)) != 0);
    WANT(strcmp(dq_status_text(DQ_HAS_ENTRY), "the task has an entry already") == 0);
    WANT(strcmp(dq_status_text(DQ_NULL + 1), "no such status") == 0 && strcmp(dq_status_text(UINT32_MAX), "no such status") == 0);
}

/* A thousand tasks in mixed order: they leave by moment, and at one moment by number. */
static void in_order(void) {
    enum { TASKS = 1000 };
    dq_slot slot = DQ_EMPTY;
    dq_entry entry, before = {0, 0};
    WANT(dq_new(&slot, TASKS) == DQ_DONE);
    for (uint32_t task = 0; task < TASKS; task++) WANT(dq_try_insert(&slot, (uint64_t)task * 7919 % 100, task) == DQ_DONE);
    for (int number = 0; number < TASKS; number++) {
        WANT(dq_poll(&slot, 100, &entry) == DQ_DONE);
        WANT(number == 0 || before.due < entry.due || (before.due == entry.due && before.task < entry.task));
        before = entry;
    }
    WANT(dq_poll(&slot, 100, &entry) == DQ_NO_ENTRY && dq_free(&slot) == DQ_DONE);
}

/* Makes a queue with each growth refused in turn, until one asks for fewer. Answers how many were refused. */
static long with_growths_refused(void) {
    for (long number = 1;; number++) {
        dq_slot slot = DQ_EMPTY;
        met = false;
        refused = number;
        dq_status status = dq_new(&slot, 64);
        refused = 0;
        WANT(status == (met ? DQ_NO_MEMORY : DQ_DONE));
        if (status == DQ_DONE) {
            refused = -1;
            for (uint32_t task = 0; task < 64; task++) WANT(dq_try_insert(&slot, 64 - task, task) == DQ_DONE);
            refused = 0;
            WANT(!met && dq_free(&slot) == DQ_DONE && blocks == 0);
            return number - 1;
        }
        WANT(slot.hidden == NULL && !slot.full && blocks == 0);
        WANT(dq_free(&slot) == DQ_NO_QUEUE);
        WANT(dq_new(&slot, 64) == DQ_DONE && dq_free(&slot) == DQ_DONE && blocks == 0);
    }
}

int main(void) {
    without_a_queue();
    with_null();
    with_a_queue();
    with_a_full_slot();
    without_tasks();
    in_words();
    in_order();
    WANT(blocks == 0);
    printf("%ld growths refused\n", with_growths_refused());
    return faults != 0;
}
