/* Timers for a server: timeouts, retries and heartbeats, submitted and cancelled while it runs.
 *
 * The executor of Java's ScheduledThreadPoolExecutor, without its threads: it reads no clock, runs no task, starts no thread, and
 * does no input or output. The program around it hands in the moment of each call, waits until the next task is due, polls for a
 * worker that has nothing to do, runs what comes back, and says how that ended. The file is named for what a C programmer looks for,
 * beside timer_create and timerfd; its names begin with timers_, which no header of the C library does.
 *
 *     timers_slot timers = TIMERS_EMPTY;
 *     timers_ref task;
 *     timers_run run;
 *     timers_end end;
 *     uint64_t due;
 *     if (timers_new(&timers, 1) != TIMERS_DONE) return 1;
 *     timers_schedule(&timers, now(), 5000000, 70, &task);      // once, 5 ms after the call, with 70
 *     timers_next_due(&timers, &due);                           // the moment to wait for
 *     if (timers_poll(&timers, now(), 0, &run) == TIMERS_DONE) {
 *         printf("%" PRIu64 " is due\n", run.data);             // 70 is due
 *         timers_finish(&timers, now(), 0, 1, &end);            // end.outcome is TIMERS_OUTCOME_DONE
 *     }
 *     timers_free(&timers);
 *
 * Moments are nanoseconds, from 0 to 2^62, as are delays and periods; a due moment may be up to 2^63, and what is due above 2^62 never
 * runs. Hand in a clock that does not go back, such as CLOCK_MONOTONIC. A poll or an end of a run is made at the moment handed in, or
 * now where that would go back: now is the greatest moment so far. A cancel and a purge are made now. Each other call that takes a moment is made at
 * the greatest of the one handed in, now, and 1 ns after the last poll or end of a run that was not refused; a delay counts from there.
 *
 * Tasks. Each submission that is accepted, or rejected with TIMERS_SHUT, is given a number, from 0 on, and an accepted one a slot that
 * no other task has while something may come of it. A timers_ref is both. A ref that is out of date names its own task still, and no
 * other: a cancel of a task that is over has no effect, whoever has its slot now. `data` is the program's, such as a pointer or an
 * index: it comes back with each run of the task, and where a policy or a shutdown ends it. Of a task that is cancelled while it waits
 * it does not come back: who cancels has it.
 *
 * Answers. Each call answers a timers_status. Where it is none of TIMERS_DONE, TIMERS_SHUT, TIMERS_IDLE and TIMERS_FULL of a poll,
 * the timers are as they were, and so are the lines of the last call, but that what a call on many has counted has happened.
 * TIMERS_NULL comes before all other answers, and nothing is written then; TIMERS_NO_TIMERS comes next. On each other answer a call
 * writes what it has to tell, and zeros where it has nothing to tell, but that timers_text leaves its buffer, and a call on many the
 * places behind those that it counted. Zeros are the ref of the first task too: look at the status before the ref.
 *
 * Lines. A submission, a cancel, a purge, a poll, an end of a run, a question, a policy and a shutdown that is taken has the lines that a trace
 * has of it (docs/RULES.md, "Lines" and "Answers"): a poll and an end of a run that of the clock and then that of the answer, a poll
 * that answers TIMERS_FULL that of the clock alone, and a call that ends tasks one more for each. All other functions of this file leave
 * the lines of the last call, and the tasks that it ended.
 *
 * Memory. No call but timers_new, the four submissions, where each slot is taken, and timers_reserve answers TIMERS_NO_MEMORY, which is
 * proved; that no other one asks for memory, and that these answer it only where it was refused, or there are 2^30 slots or more at a
 * submission, is tested. Nothing has changed then.
 *
 * What is proved: each function of the library, named timers_ref_.. below, meets its contract (crates/timers_c/specs/Calls.antt and
 * Many.antt), which says exactly when each answer comes, but for want of memory, what is written and what becomes of the timers; touches
 * no memory but what it is handed and what the timers took; and ends. What the calls are answered is what the executor's equations give
 * for the one history of the calls so far. What is not proved: that timers_free gives all memory back (tools/bindings counts); that the
 * members of each structure and the parameters of each function stand here in the library's order (tools/bindings compares the members);
 * the inline functions of this file, which test for NULL and are tested; and the C library's heap.
 *
 * What a caller owes, since nothing can check it:
 * - a slot is TIMERS_EMPTY, or all zeros, before the first call, and only these calls read or write its members after that;
 * - a slot is not copied: of two copies one alone may be used again. The other may be used as an empty slot once all its bytes are
 *   zeros, as memset makes them;
 * - a slot is used by one thread at a time, also for calls that only look; it may be used by one thread after another, which
 *   a lock, or the start or join of a thread, puts in order;
 * - a pointer that is not NULL points to an object of its type, or to as many as the length beside it says, which nothing else uses
 *   during the call and which do not overlap each other;
 * - no call is made from a signal handler, or from the forked child of a process with threads;
 * - malloc, realloc and free come from one allocator, and align as C asks.
 * It is written for C11 and C++11, or later.
 */
#ifndef TIMERS_H
#define TIMERS_H

#include <stdbool.h>
#include <stddef.h>
#include <stdint.h>

#include "sched_version.h"

#ifdef __cplusplus
extern "C" {
#endif

/* How a call ended. The numbers stay as they are. */
typedef uint32_t timers_status;

enum {
    TIMERS_DONE = 0,        /* the call did what it says */
    TIMERS_NO_MEMORY = 1,   /* malloc refused, or there are 2^30 slots or more, and each is taken */
    TIMERS_NO_TIMERS = 2,   /* the slot is empty */
    TIMERS_HAS_TIMERS = 3,  /* the slot has timers already */
    TIMERS_WORKERS = 4,     /* the number of workers is not 1 to 255 */
    TIMERS_SHUT = 5,        /* a submission is rejected, since the timers are shut: it has a number, and no task */
    TIMERS_ILLEGAL = 6,     /* a period, or a fixed delay, is 0; or there is no such policy; or a code is 2^32 or more */
    TIMERS_TOO_LONG = 7,    /* a delay or a period is above 2^62 nanoseconds */
    TIMERS_TOO_FAR = 8,     /* the moment of the call would be above 2^62 nanoseconds */
    TIMERS_NULL = 9,        /* a pointer is NULL */
    TIMERS_NO_WORKER = 10,  /* there is no such worker */
    TIMERS_BUSY = 11,       /* the worker has a run under way */
    TIMERS_NOT_RUNNING = 12,/* the worker has no run under way */
    TIMERS_IDLE = 13,       /* nothing is due; or no task waits; or the queue is empty; or no more tasks were ended */
    TIMERS_FULL = 14,       /* no number is left: 2^64 - 1 submissions, or as many runs of the task that is due */
    TIMERS_NO_TASK = 15,    /* no submission was given this number yet */
    TIMERS_NUMBER = 16      /* a line of the last call would name a task by a number of 2^32 or more, which no trace does */
};

/* Room for timers, with them or without. Its members are the library's. */
typedef struct timers_slot {
    void *hidden;
    bool full;
} timers_slot;

/* A slot without timers. */
#ifdef __cplusplus
#define TIMERS_EMPTY timers_slot{nullptr, false}
#else
#define TIMERS_EMPTY {NULL, false}
#endif

/* A task: the number of its submission, and the slot that it has while something may come of it. */
typedef struct timers_ref {
    uint64_t number;
    uint32_t slot;
} timers_ref;

/* A run that a worker has begun. */
typedef struct timers_run {
    timers_ref task;
    uint64_t run;    /* the number of the run, 0 for the first one of its task */
    uint64_t due;    /* the moment at which it was due, in nanoseconds, at most 2^63 */
    uint64_t data;   /* what was given with the submission */
    uint32_t worker; /* the worker that has it under way */
} timers_run;

/* What becomes of a task whose run has ended. */
enum {
    TIMERS_OUTCOME_DONE = 0,   /* its one run ended with a value */
    TIMERS_OUTCOME_FAILED = 1, /* the run failed, and it was not cancelled: no run comes after it */
    TIMERS_OUTCOME_AGAIN = 2,  /* it waits for its next run */
    TIMERS_OUTCOME_DROPPED = 3,/* it was cancelled as it ran, however the run ended */
    TIMERS_OUTCOME_ENDED = 4   /* the timers are shut, and the policies let no run of it come after this one, or were shut at once */
};

/* A run that a worker has ended. */
typedef struct timers_end {
    timers_ref task;
    uint64_t run;     /* the number of the run */
    uint64_t data;    /* what was given with the submission */
    uint64_t value;   /* the value of a run that is done, the code of one that failed, the moment at which the next one is due; else 0 */
    uint32_t outcome; /* TIMERS_OUTCOME_.. */
} timers_end;

/* How a run that is to be ended ended, for timers_finish_many. */
typedef struct timers_ending {
    uint64_t value;  /* its value, or the code of its failure, below 2^32 */
    uint32_t worker; /* the worker that has it under way */
    uint32_t failed; /* 0: it ended with the value; else it failed */
} timers_ending;

/* A task that the last call ended. */
typedef struct timers_gone {
    timers_ref task;
    uint64_t data; /* what was given with the submission */
} timers_gone;

/* What a cancel did. */
enum {
    TIMERS_CANCEL_NONE = 0, /* nothing: the submission was rejected */
    TIMERS_CANCEL_NO = 1,   /* nothing: the task was cancelled before, or is over */
    TIMERS_CANCEL_YES = 2   /* the task waited, or is run, and is cancelled now */
};

/* How far a task is. */
enum {
    TIMERS_TASK_GONE = 0,    /* it is over, or was cancelled and left the queue, or its submission was rejected */
    TIMERS_TASK_WAITING = 1, /* it waits for a run */
    TIMERS_TASK_RUNNING = 2, /* a run of it is under way */
    TIMERS_TASK_KEPT = 3     /* it was cancelled while it waited, and stands in the queue still */
};

typedef struct timers_task {
    uint64_t run;       /* the number of the run that it waits for, or waited for when it was cancelled, or that is under way; 0 where the task is gone */
    uint64_t due;       /* the moment at which that run is due, or was; 0 where the task is gone */
    uint32_t phase;     /* TIMERS_TASK_.. */
    uint32_t cancelled; /* 1: it was cancelled, and is not gone; else 0 */
} timers_task;

/* The policies, which are those of ScheduledThreadPoolExecutor. */
enum {
    TIMERS_POLICY_CONTINUE = 0, /* periodic tasks run on after an orderly shutdown: false at first */
    TIMERS_POLICY_EXECUTE = 1,  /* tasks that wait for one run, and are not due yet, have it after an orderly shutdown: true at first */
    TIMERS_POLICY_REMOVE = 2    /* a task that is cancelled while it waits leaves the queue at once: false at first */
};

/* How far the timers are. */
typedef struct timers_state {
    uint64_t now;        /* the greatest moment so far */
    uint64_t numbers;    /* how many submissions were given a number */
    size_t alive;        /* how many tasks stand in the queue, or have a run under way */
    size_t ended;        /* how many tasks the last call ended, but for the one whose run was finished */
    size_t lines;        /* how many lines the last call has */
    uint32_t policies;   /* bit n: the policy of number n is true */
    uint32_t shut;       /* 1: a call to shut down was made; else 0 */
    uint32_t terminated; /* 1: they are shut, and no task is alive; else 0 */
} timers_state;

/* How many tasks there are, as a call asks. */
typedef struct timers_counts {
    size_t queue;        /* how many tasks wait, or are kept in the queue after a cancel */
    size_t running;      /* how many tasks have a run under way */
    uint32_t shut;       /* 1: a call to shut down was made; else 0 */
    uint32_t terminated; /* 1: they are shut, and nothing is queued or run; else 0 */
} timers_counts;

/* How many bytes are enough for any line, with its newline. */
#define TIMERS_LINE_ROOM 128

/* What of a text was copied. */
typedef struct timers_copied {
    size_t lines; /* how many whole lines */
    size_t bytes; /* how many bytes, with the newline of each line */
} timers_copied;

/* The functions of the library. They are as those without `ref` in their names, but for NULL: no pointer may be NULL, and
 * each is aligned as its type. */
timers_status timers_ref_new(timers_slot *slot, uint32_t workers);
timers_status timers_ref_free(timers_slot *slot);
timers_status timers_ref_reserve(timers_slot *slot, uint32_t tasks);
timers_status timers_ref_schedule(timers_slot *slot, uint64_t now, uint64_t delay, uint64_t data, timers_ref *task);
timers_status timers_ref_execute(timers_slot *slot, uint64_t now, uint64_t data, timers_ref *task);
timers_status timers_ref_rate(timers_slot *slot, uint64_t now, uint64_t first, uint64_t period, uint64_t data, timers_ref *task);
timers_status timers_ref_fixed(timers_slot *slot, uint64_t now, uint64_t first, uint64_t delay, uint64_t data, timers_ref *task);
timers_status timers_ref_cancel(timers_slot *slot, const timers_ref *task, uint32_t *effect);
timers_status timers_ref_purge(timers_slot *slot);
timers_status timers_ref_poll(timers_slot *slot, uint64_t now, uint32_t worker, timers_run *run);
timers_status timers_ref_poll_many(timers_slot *slot, uint64_t now, timers_run *runs, size_t n, size_t *begun);
timers_status timers_ref_finish(timers_slot *slot, uint64_t now, uint32_t worker, uint64_t value, timers_end *end);
timers_status timers_ref_fail(timers_slot *slot, uint64_t now, uint32_t worker, uint32_t code, timers_end *end);
timers_status timers_ref_finish_many(timers_slot *slot, uint64_t now, const timers_ending *endings, size_t endings_length, timers_end *ends, size_t ends_length, size_t *ended);
timers_status timers_ref_next_due(timers_slot *slot, uint64_t *due);
timers_status timers_ref_head_due(timers_slot *slot, uint64_t *due);
timers_status timers_ref_task_of(timers_slot *slot, const timers_ref *task, timers_task *state);
timers_status timers_ref_state_of(timers_slot *slot, timers_state *state);
timers_status timers_ref_ask(timers_slot *slot, uint64_t now, timers_counts *counts);
timers_status timers_ref_set_policy(timers_slot *slot, uint64_t now, uint32_t policy, bool value);
timers_status timers_ref_shutdown(timers_slot *slot, uint64_t now, uint32_t *first);
timers_status timers_ref_shutdown_now(timers_slot *slot, uint64_t now);
timers_status timers_ref_ended(timers_slot *slot, size_t place, timers_gone *gone);
timers_status timers_ref_text(timers_slot *slot, size_t from, uint8_t *out, size_t room, timers_copied *copied);

/* Makes timers in an empty slot, before anything happened. `workers` is the number of workers, 1 to 255: calls name them from 0.
 * TIMERS_HAS_TIMERS: the slot is full. Then TIMERS_WORKERS, then TIMERS_NO_MEMORY. The slot is as it was on each of these. */
static inline timers_status timers_new(timers_slot *slot, uint32_t workers) {
    return slot == NULL ? (timers_status)TIMERS_NULL : timers_ref_new(slot, workers);
}

/* Frees the timers, and leaves the slot empty. TIMERS_NO_TIMERS: it was empty. */
static inline timers_status timers_free(timers_slot *slot) {
    return slot == NULL ? (timers_status)TIMERS_NULL : timers_ref_free(slot);
}

/* Makes at least so many slots, so that no submission needs memory while fewer tasks than that are alive. It is no call, and has no
 * line. TIMERS_NO_TIMERS. TIMERS_NO_MEMORY. */
static inline timers_status timers_reserve(timers_slot *slot, uint32_t tasks) {
    return slot == NULL ? (timers_status)TIMERS_NULL : timers_ref_reserve(slot, tasks);
}

/* The four submissions. Each writes the ref of its task. TIMERS_NO_TIMERS. Then TIMERS_ILLEGAL: a period, or a fixed delay, is 0.
 * TIMERS_TOO_LONG, then TIMERS_TOO_FAR, then TIMERS_FULL, then TIMERS_NO_MEMORY, which comes only where each slot is taken and the
 * timers are not shut: nothing has changed on each of these, no number is given, and zeros are written. TIMERS_SHUT: the submission is
 * rejected, and the ref has its number and the slot UINT32_MAX. */

/* Submits a task for one run, `delay` nanoseconds after the moment of the call. */
static inline timers_status timers_schedule(timers_slot *slot, uint64_t now, uint64_t delay, uint64_t data, timers_ref *task) {
    return slot == NULL || task == NULL ? (timers_status)TIMERS_NULL : timers_ref_schedule(slot, now, delay, data, task);
}

/* Submits a task for one run at once. */
static inline timers_status timers_execute(timers_slot *slot, uint64_t now, uint64_t data, timers_ref *task) {
    return slot == NULL || task == NULL ? (timers_status)TIMERS_NULL : timers_ref_execute(slot, now, data, task);
}

/* Submits a task that runs first `first` nanoseconds after the moment of the call, and then at a fixed rate: each run is due `period`
 * nanoseconds after the one before it was due, however long that took. */
static inline timers_status timers_rate(timers_slot *slot, uint64_t now, uint64_t first, uint64_t period, uint64_t data, timers_ref *task) {
    return slot == NULL || task == NULL ? (timers_status)TIMERS_NULL : timers_ref_rate(slot, now, first, period, data, task);
}

/* The same, where each run is due `delay` nanoseconds after the one before it was finished. */
static inline timers_status timers_fixed(timers_slot *slot, uint64_t now, uint64_t first, uint64_t delay, uint64_t data, timers_ref *task) {
    return slot == NULL || task == NULL ? (timers_status)TIMERS_NULL : timers_ref_fixed(slot, now, first, delay, data, task);
}

/* Cancels a task, and writes what that did (TIMERS_CANCEL_..). A task that waits is kept in the queue until a poll meets it, a
 * shutdown or a policy sweeps it, or timers_purge takes it out, unless the remove policy is set. A run that is under way goes on, and
 * is finished as any other; no run comes after it. TIMERS_NO_TIMERS. TIMERS_NO_TASK: no submission was given the number yet. */
static inline timers_status timers_cancel(timers_slot *slot, timers_ref task, uint32_t *effect) {
    return slot == NULL || effect == NULL ? (timers_status)TIMERS_NULL : timers_ref_cancel(slot, &task, effect);
}

/* Takes each task out of the queue that was cancelled while it waited, and is kept: its slot is free then. No other task changes, and
 * nothing comes back; whoever cancelled has the data. It is made now, also where the timers are shut. TIMERS_NO_TIMERS. */
static inline timers_status timers_purge(timers_slot *slot) {
    return slot == NULL ? (timers_status)TIMERS_NULL : timers_ref_purge(slot);
}

/* A worker that has no run under way asks for one, and begins one of the first task that is due, which is written: that with the
 * least due moment, and of those with one due moment the one submitted first. TIMERS_NO_TIMERS. TIMERS_NO_WORKER. Then TIMERS_BUSY,
 * then TIMERS_TOO_FAR. TIMERS_IDLE: nothing is due. TIMERS_FULL: the first task that is due has had 2^64 - 1 runs. On the last two
 * the moment handed in is now, unless that would go back. */
static inline timers_status timers_poll(timers_slot *slot, uint64_t now, uint32_t worker, timers_run *run) {
    return slot == NULL || run == NULL ? (timers_status)TIMERS_NULL : timers_ref_poll(slot, now, worker, run);
}

/* Polls for the worker of each of `n` runs, which the caller writes there, one after the other, as timers_poll does, at one moment,
 * until one begins none. Writes how many began one, and answers as the poll that began none; TIMERS_DONE where each did. The runs
 * behind those that were begun are as they were. TIMERS_NO_TIMERS. The lines are those of the last poll that was not refused: a
 * program that keeps a trace polls one by one. `runs` may be NULL where n is 0. */
static inline timers_status timers_poll_many(timers_slot *slot, uint64_t now, timers_run *runs, size_t n, size_t *begun) {
    timers_run none = {{0, 0}, 0, 0, 0, 0};
    if (slot == NULL || begun == NULL || (runs == NULL && n != 0)) return TIMERS_NULL;
    return timers_ref_poll_many(slot, now, runs == NULL ? &none : runs, n, begun);
}

/* The run of a worker has ended with a value, and what becomes of its task is written. TIMERS_NO_TIMERS. TIMERS_NO_WORKER. Then
 * TIMERS_NOT_RUNNING, then TIMERS_TOO_FAR. */
static inline timers_status timers_finish(timers_slot *slot, uint64_t now, uint32_t worker, uint64_t value, timers_end *end) {
    return slot == NULL || end == NULL ? (timers_status)TIMERS_NULL : timers_ref_finish(slot, now, worker, value, end);
}

/* The same of a run that has failed, with a code of the program's own: no run of its task comes after it. */
static inline timers_status timers_fail(timers_slot *slot, uint64_t now, uint32_t worker, uint32_t code, timers_end *end) {
    return slot == NULL || end == NULL ? (timers_status)TIMERS_NULL : timers_ref_fail(slot, now, worker, code, end);
}

/* Finishes the runs of `n` workers, one after the other, at one moment, until one is refused. Writes how many were ended, and what
 * becomes of the task of each, and answers as the finish that was refused; TIMERS_DONE where none was. TIMERS_ILLEGAL: the code of a
 * failure is 2^32 or more, which is looked at before the worker. The ends behind those are as they were. TIMERS_NO_TIMERS. The lines
 * are those of the last run that ended. `endings` and `ends` may be NULL where n is 0. */
static inline timers_status timers_finish_many(timers_slot *slot, uint64_t now, const timers_ending *endings, timers_end *ends, size_t n, size_t *ended) {
    timers_end none = {{0, 0}, 0, 0, 0, 0};
    const timers_ending no = {0, 0, 0};
    if (slot == NULL || ended == NULL || ((endings == NULL || ends == NULL) && n != 0)) return TIMERS_NULL;
    return timers_ref_finish_many(slot, now, endings == NULL ? &no : endings, n, ends == NULL ? &none : ends, n, ended);
}

/* Writes the moment at which the first task that waits is due: before it no poll begins a run. TIMERS_NO_TIMERS. TIMERS_IDLE: no task
 * waits. */
static inline timers_status timers_next_due(timers_slot *slot, uint64_t *due) {
    return slot == NULL || due == NULL ? (timers_status)TIMERS_NULL : timers_ref_next_due(slot, due);
}

/* Writes the moment at which the head of the queue is due, which waits or is kept: before it no poll takes a task out of the queue. A
 * program for which cancelled tasks are to leave at their own moments waits for this one, and polls with a free worker until that
 * worker is idle: what is due has left then. TIMERS_NO_TIMERS. TIMERS_IDLE: the queue is empty. */
static inline timers_status timers_head_due(timers_slot *slot, uint64_t *due) {
    return slot == NULL || due == NULL ? (timers_status)TIMERS_NULL : timers_ref_head_due(slot, due);
}

/* Writes how far a task is. The task is the one of the number, whatever the slot. TIMERS_NO_TIMERS. TIMERS_NO_TASK: no submission was
 * given the number yet. */
static inline timers_status timers_task_of(timers_slot *slot, timers_ref task, timers_task *state) {
    return slot == NULL || state == NULL ? (timers_status)TIMERS_NULL : timers_ref_task_of(slot, &task, state);
}

/* Writes how far the timers are. It is no call, and has no line. TIMERS_NO_TIMERS. */
static inline timers_status timers_state_of(timers_slot *slot, timers_state *state) {
    return slot == NULL || state == NULL ? (timers_status)TIMERS_NULL : timers_ref_state_of(slot, state);
}

/* Writes how many tasks there are, as a call that has a line. TIMERS_NO_TIMERS. TIMERS_TOO_FAR. */
static inline timers_status timers_ask(timers_slot *slot, uint64_t now, timers_counts *counts) {
    return slot == NULL || counts == NULL ? (timers_status)TIMERS_NULL : timers_ref_ask(slot, now, counts);
}

/* Sets a policy (TIMERS_POLICY_..). Where the timers are shut, and the continue or the execute policy is set to false, this ends the
 * tasks that the policies do not let run any more: timers_ended tells them. TIMERS_NO_TIMERS. TIMERS_ILLEGAL: there is no such policy.
 * Then TIMERS_TOO_FAR. */
static inline timers_status timers_set_policy(timers_slot *slot, uint64_t now, uint32_t policy, bool value) {
    return slot == NULL ? (timers_status)TIMERS_NULL : timers_ref_set_policy(slot, now, policy, value);
}

/* Shuts the timers down in order: submissions are rejected from then on. Writes 1 where they were not shut before, and else 0. The
 * first such call ends the tasks that the policies do not let run any more: timers_ended tells them. TIMERS_NO_TIMERS.
 * TIMERS_TOO_FAR. */
static inline timers_status timers_shutdown(timers_slot *slot, uint64_t now, uint32_t *first) {
    return slot == NULL || first == NULL ? (timers_status)TIMERS_NULL : timers_ref_shutdown(slot, now, first);
}

/* Shuts the timers down at once: submissions are rejected from then on, each task that waits is ended, as timers_ended tells, and of a
 * task that runs no run comes after this one. TIMERS_NO_TIMERS. TIMERS_TOO_FAR. */
static inline timers_status timers_shutdown_now(timers_slot *slot, uint64_t now) {
    return slot == NULL ? (timers_status)TIMERS_NULL : timers_ref_shutdown_now(slot, now);
}

/* Writes the task at a place, from 0 on, of those that the last call ended as it set a policy or shut the timers down, by their
 * numbers, ascending. TIMERS_NO_TIMERS. TIMERS_IDLE: there are no more. */
static inline timers_status timers_ended(timers_slot *slot, size_t place, timers_gone *gone) {
    return slot == NULL || gone == NULL ? (timers_status)TIMERS_NULL : timers_ref_ended(slot, place, gone);
}

/* Copies the text of the lines of the last call into a buffer of `room` bytes, from line `from` on, counted from 0, and writes to
 * `copied` how much: whole lines, each of which begins where TIMERS_LINE_ROOM bytes of room are left, until no line is left or no such
 * room. The lines of all calls, taken after each, are the trace that `sched check` takes beside a plan with the submissions, the policies,
 * the shutdowns and the questions, at the moments that the lines tell, as long as these are 65,536 at most, their plan is no longer than 1 MiB, which some
 * 20,000 calls fill, the trace no longer than 64 MiB, and no call names a worker of 64 or above. The line to go on with is `from + copied->lines`. What stands in the
 * buffer behind the text is lost. TIMERS_NO_TIMERS. TIMERS_NUMBER: nothing is written to the buffer. `out` may be NULL where room is 0. */
static inline timers_status timers_text(timers_slot *slot, size_t from, uint8_t *out, size_t room, timers_copied *copied) {
    uint8_t none = 0;
    if (slot == NULL || copied == NULL || (out == NULL && room != 0)) return TIMERS_NULL;
    return timers_ref_text(slot, from, out == NULL ? &none : out, room, copied);
}

/* What a status means, in words. */
static inline const char *timers_status_text(timers_status status) {
    static const char *const texts[] = {"done", "out of memory", "the slot is empty", "the slot has timers already",
        "the number of workers is not 1 to 255", "the timers are shut", "a period is 0, a code too large, or there is no such policy",
        "a span is above 2^62 nanoseconds", "the moment is above 2^62 nanoseconds", "a pointer is NULL", "there is no such worker",
        "the worker has a run under way", "the worker has no run under way", "nothing is due", "no number is left",
        "no such task", "a line can not name the task"};
    return status <= TIMERS_NUMBER ? texts[status] : "no such status";
}

#ifdef __cplusplus
}
#endif

#endif
