/* A delay queue: tasks, each of which comes out once the moment at which it is due has come.
 *
 * A queue is made for a count of tasks, numbered from 0, and takes all of its memory then. Each of these tasks has at most
 * one entry in it: the task's number, and the moment at which it is due, in nanoseconds since a beginning that the caller
 * chooses, from 0 to UINT64_MAX. Entries leave by moment, and at one moment by task number. The queue reads no clock.
 *
 *     dq_slot slot = DQ_EMPTY;
 *     dq_entry entry;
 *     if (dq_new(&slot, 3) != DQ_DONE) return 1;
 *     dq_try_insert(&slot, 5000, 0);
 *     while (dq_poll(&slot, now, &entry) == DQ_DONE) fire(entry.task);
 *     dq_free(&slot);
 *
 * This file is C11 and C++11. docs/EMBEDDING.md says what a program is linked with.
 *
 * Answers. Each call but dq_insert_unchecked answers a dq_status. DQ_NULL comes before all other answers: nothing at all
 * changed then, and nothing was written. DQ_NO_QUEUE comes next. Where the answer is not DQ_DONE, the queue is as it was, and
 * nothing was written to what `out`, `due`, `count` or `touched` point to. The two calls for many entries are other: what
 * dq_insert_many added before an entry that is refused stays, and both write how many entries they added or took out on
 * each answer but DQ_NULL.
 *
 * What is proved: each function of the library, named dq_ref_.. below, and dq_insert_unchecked meet their contracts
 * (crates/delay_queue_c), which say the answer, what is written and what becomes of the queue in each case, touch no memory
 * but what they are handed and what the queue took, and end. What is not: when dq_new answers DQ_NO_MEMORY, since no contract
 * says what malloc grants; that it keeps no memory then, and that dq_free gives all of it back (tools/bindings tries both); the
 * inline functions of this file, which test for NULL and are tested; and the C library's heap.
 *
 * What a caller owes, since nothing can check it:
 * - a slot is DQ_EMPTY, or all zeros, before the first call, and only these calls read or write its members after that;
 * - a slot is not copied: of two copies only one may be used again, and the other is filled with zeros, as by memset;
 * - a slot is used by one thread at a time, also for calls that only look. It may be used by one thread after another, where
 *   a lock, or the start or the end of a thread, stands between the two (that the queue may cross is proved);
 * - a pointer that is not NULL points to an object of its type, or to as many as the count beside it says, which nothing
 *   else uses during the call and which do not overlap each other;
 * - no call is made from a signal handler, or from the forked child of a process with threads;
 * - malloc, realloc and free come from one allocator, and align as C asks.
 *
 * Cost: with n entries dq_try_insert, dq_poll and dq_remove compare two entries or move one at most 4 d + 2 times, where d
 * is the count of binary digits of n. A queue takes 20 bytes for each task, and a few more once.
 */
#ifndef DELAY_QUEUE_H
#define DELAY_QUEUE_H

#include <stdbool.h>
#include <stddef.h>
#include <stdint.h>

#include "sched_version.h"

#ifdef __cplusplus
extern "C" {
#endif

/* How a call ended. The numbers stay as they are. */
typedef uint32_t dq_status;

enum {
    DQ_DONE = 0,         /* the call did what it says */
    DQ_NO_ENTRY = 1,     /* no entry is due, none is there, or none is of this task */
    DQ_NO_MEMORY = 2,    /* malloc refused */
    DQ_NO_QUEUE = 3,     /* the slot is empty */
    DQ_HAS_QUEUE = 4,    /* the slot has a queue already */
    DQ_UNKNOWN_TASK = 5, /* the task is not below the count of tasks */
    DQ_HAS_ENTRY = 6,    /* the task has an entry already */
    DQ_NULL = 7          /* a pointer is NULL */
};

/* Room for a queue, with one or without. Its members are the library's. */
typedef struct dq_slot {
    void *hidden;
    uint32_t tasks;
    bool full;
} dq_slot;

/* A slot without a queue, to begin one with: `dq_slot slot = DQ_EMPTY;`. It is no expression in C. */
#ifdef __cplusplus
#define DQ_EMPTY dq_slot{nullptr, 0, false}
#else
#define DQ_EMPTY {NULL, 0, false}
#endif

/* An entry: when the task is due, in nanoseconds, and its number. */
typedef struct dq_entry {
    uint64_t due;
    uint32_t task;
} dq_entry;

/* The functions of the library. They are as those without `ref` in their names, but for NULL: no pointer may be NULL, and
 * each is aligned as its type. */
dq_status dq_ref_new(dq_slot *slot, uint32_t tasks);
dq_status dq_ref_free(dq_slot *slot);
dq_status dq_ref_try_insert(dq_slot *slot, uint64_t due, uint32_t task);
dq_status dq_ref_poll(dq_slot *slot, uint64_t now, dq_entry *out);
dq_status dq_ref_peek(dq_slot *slot, dq_entry *out);
dq_status dq_ref_remove(dq_slot *slot, uint32_t task);
dq_status dq_ref_due_of(dq_slot *slot, uint32_t task, uint64_t *due);
dq_status dq_ref_contains(dq_slot *slot, uint32_t task);
dq_status dq_ref_len(dq_slot *slot, size_t *count);
dq_status dq_ref_touched(dq_slot *slot, uint64_t *touched);
dq_status dq_ref_insert_many(dq_slot *slot, const dq_entry *entries, size_t length, size_t *inserted);
dq_status dq_ref_poll_many(dq_slot *slot, uint64_t now, dq_entry *out, size_t room, size_t *polled);

/* Adds an entry, as dq_try_insert, and tests nothing. The caller owes beside the rest: the slot is full, the task is below
 * the count of tasks, and it has no entry. Else the behaviour is undefined. */
void dq_insert_unchecked(dq_slot *slot, uint64_t due, uint32_t task);

/* Puts a new queue, for the tasks from 0 to tasks - 1, into an empty slot. It has no entry.
 * DQ_HAS_QUEUE: the slot is full. DQ_NO_MEMORY: malloc refused; the slot is empty then. That no memory is kept then is tested. */
static inline dq_status dq_new(dq_slot *slot, uint32_t tasks) {
    return slot == NULL ? (dq_status)DQ_NULL : dq_ref_new(slot, tasks);
}

/* Frees the queue, and leaves the slot empty. DQ_NO_QUEUE: it was empty. */
static inline dq_status dq_free(dq_slot *slot) {
    return slot == NULL ? (dq_status)DQ_NULL : dq_ref_free(slot);
}

/* Adds an entry: the task is due at the moment `due`.
 * DQ_NO_QUEUE, then DQ_UNKNOWN_TASK: the task is not below the count of tasks, then DQ_HAS_ENTRY: it has an entry already. */
static inline dq_status dq_try_insert(dq_slot *slot, uint64_t due, uint32_t task) {
    return slot == NULL ? (dq_status)DQ_NULL : dq_ref_try_insert(slot, due, task);
}

/* Takes out the least entry, if it is due at the moment `now`, that is not after it, and writes it to `out`.
 * DQ_NO_QUEUE. DQ_NO_ENTRY: none is due. */
static inline dq_status dq_poll(dq_slot *slot, uint64_t now, dq_entry *out) {
    return slot == NULL || out == NULL ? (dq_status)DQ_NULL : dq_ref_poll(slot, now, out);
}

/* Writes the least entry to `out`, due or not. It stays. DQ_NO_QUEUE. DQ_NO_ENTRY: there is none. */
static inline dq_status dq_peek(dq_slot *slot, dq_entry *out) {
    return slot == NULL || out == NULL ? (dq_status)DQ_NULL : dq_ref_peek(slot, out);
}

/* Takes out the entry of a task. DQ_NO_QUEUE. DQ_NO_ENTRY: the task has none, as each task that is not below the count. */
static inline dq_status dq_remove(dq_slot *slot, uint32_t task) {
    return slot == NULL ? (dq_status)DQ_NULL : dq_ref_remove(slot, task);
}

/* Writes the moment at which a task is due to `due`. DQ_NO_QUEUE. DQ_NO_ENTRY: the task has no entry, as each task that is not
 * below the count. */
static inline dq_status dq_due_of(dq_slot *slot, uint32_t task, uint64_t *due) {
    return slot == NULL || due == NULL ? (dq_status)DQ_NULL : dq_ref_due_of(slot, task, due);
}

/* Whether a task has an entry: DQ_DONE, or DQ_NO_ENTRY, also for each task that is not below the count. DQ_NO_QUEUE. */
static inline dq_status dq_contains(dq_slot *slot, uint32_t task) {
    return slot == NULL ? (dq_status)DQ_NULL : dq_ref_contains(slot, task);
}

/* Writes to `count` how many entries there are. DQ_NO_QUEUE. */
static inline dq_status dq_len(dq_slot *slot, size_t *count) {
    return slot == NULL || count == NULL ? (dq_status)DQ_NULL : dq_ref_len(slot, count);
}

/* Writes to `touched` how often the calls so far compared two entries, or changed the place of an entry that stays. The
 * count stays at UINT64_MAX. DQ_NO_QUEUE. */
static inline dq_status dq_touched(dq_slot *slot, uint64_t *touched) {
    return slot == NULL || touched == NULL ? (dq_status)DQ_NULL : dq_ref_touched(slot, touched);
}

/* Adds `length` entries in turn, up to the first that is refused, and writes to `inserted` how many were added. The answer
 * is that of the first that is refused, which stands at entries[*inserted], else DQ_DONE. Those before it stay in the queue,
 * and those behind it are not looked at. DQ_NO_QUEUE: `inserted` is 0 then. DQ_NULL: `inserted` is as it was, and none was
 * added. `entries` may be NULL where length is 0. */
static inline dq_status dq_insert_many(dq_slot *slot, const dq_entry *entries, size_t length, size_t *inserted) {
    static const dq_entry none = {0, 0};
    if (slot == NULL || inserted == NULL || (entries == NULL && length != 0)) return DQ_NULL;
    return dq_ref_insert_many(slot, entries == NULL ? &none : entries, length, inserted);
}

/* Takes out entries that are due at the moment `now`, the least first, as many as `out` has room for, writes them there in
 * this order, and writes to `polled` how many. Fewer than `room` say that no more are due. What stands in `out` behind them
 * is as it was. DQ_DONE also for none. DQ_NO_QUEUE: `polled` is 0 then. DQ_NULL: `polled` and `out` are as they were, and none
 * was taken out. `out` may be NULL where room is 0. */
static inline dq_status dq_poll_many(dq_slot *slot, uint64_t now, dq_entry *out, size_t room, size_t *polled) {
    dq_entry none = {0, 0};
    if (slot == NULL || polled == NULL || (out == NULL && room != 0)) return DQ_NULL;
    return dq_ref_poll_many(slot, now, out == NULL ? &none : out, room, polled);
}

/* What a status means, in words. */
static inline const char *dq_status_text(dq_status status) {
    static const char *const texts[] = {"done", "no such entry", "out of memory", "the slot is empty",
        "the slot has a queue already", "no such task", "the task has an entry already", "a pointer is NULL"};
    return status <= DQ_NULL ? texts[status] : "no such status";
}

#ifdef __cplusplus
}
#endif

#endif
