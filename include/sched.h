/* A scheduled executor that is told what happens, and answers in lines of text.
 *
 * An executor is made of a plan's text, and takes events: the clock shows a moment, a worker asks for work, a worker's run has
 * ended, a task is to be cancelled. It reads no clock, runs no task, starts no thread, and does no input or output: the
 * program around it does, and tells it. Moments are nanoseconds, from 0 to 2^62; what moment 0 is, the program says.
 *
 *     sched_slot slot = SCHED_EMPTY;
 *     sched_fault fault;
 *     sched_copied copied;
 *     sched_run run;
 *     uint8_t text[4096];
 *     if (sched_new(&slot, plan, length, 1, 1000, &fault) != SCHED_DONE) return 1;
 *     sched_clock(&slot, 10);
 *     sched_text(&slot, 0, text, sizeof text, &copied);
 *     fwrite(text, 1, copied.bytes, stdout);
 *     sched_start(&slot, 0);
 *     if (sched_started(&slot, &run) == SCHED_DONE) printf("run %" PRIu64 " of task %" PRIu32 "\n", run.run, run.task);
 *     sched_free(&slot);
 *
 * With a plan whose first call asks for a task at a fixed rate, first after 10 nanoseconds, it prints
 *
 *     0 submit 0 rate due 10
 *     10 clock
 *     run 0 of task 0
 *
 * What may stand in a plan's text is told in docs/RULES.md under "Plan texts", "Blocks" and "Calls of a plan", with an example in
 * crates/plan_read/src/lib.rt. How each line is spelled is told there under "Lines", with a table in crates/trace_text/src/lib.rt,
 * and which lines answer an event under "Answers". Each line ends with a newline.
 *
 * Answers. Each call answers a sched_status. Where it is not SCHED_DONE, the executor is as it was, and so are its lines.
 * SCHED_NULL comes before all other answers, and nothing is written then; SCHED_NO_EXECUTOR comes next. On each other answer a
 * call writes its `fault`, `copied`, `state` or `run` anew, and fills it with zeros where it has nothing to tell; a text buffer
 * is as it was where the answer is not SCHED_DONE.
 *
 * Memory. No call but sched_new answers SCHED_NO_MEMORY, which is proved. sched_new may answer it to each empty slot, as far as the
 * contracts say. That sched_new takes all memory that an executor ever needs, and no event takes any, is tested. Text goes into the
 * caller's buffer: so the library keeps none, and hands out no pointer that could be used too late.
 *
 * What is proved: each function of the library, named sched_ref_.. below, meets its contract (crates/sched_c/specs/Calls.antt),
 * which says exactly when each answer comes, but that SCHED_NO_MEMORY may come in place of some answers of sched_new, what is
 * written and what becomes of the executor; touches no memory but what it is handed and what the executor took; and ends. The
 * lines that answer an event are those that the executor's equations give, in their order, and the text that is copied is the
 * text of these lines. What follows of the equations, as that no run starts before it is due and that no two runs of a task
 * overlap, is proved in crates/executor_laws. What is not proved: that sched_free gives all memory back, and that a sched_new
 * does that makes no executor (tools/bindings tries both); the inline functions of this file, which test for NULL and are tested;
 * and the C library's heap.
 *
 * What a caller owes, since nothing can check it:
 * - a slot is SCHED_EMPTY, or all zeros, before the first call, and only these calls read or write its members after that;
 * - a slot is not copied: of two copies one alone may be used again. The other may be used as an empty slot once all its bytes are
 *   zeros, as memset makes them;
 * - a slot is used by one thread at a time, also for calls that only look; it may be used by one thread after another, which
 *   a lock, or the start or join of a thread, puts in order;
 * - a pointer that is not NULL points to an object of its type, or to as many bytes as the length beside it says, which
 *   nothing else uses during the call and which do not overlap each other;
 * - no call is made from a signal handler, or from the forked child of a process with threads;
 * - malloc, realloc and free come from one allocator, and align as C asks.
 * It is written for C11 and C++11, or later.
 *
 * Cost: a plan takes some 80 bytes for each task, 8 for each worker, and 48 for each line that one event may have: one, one
 * for each call of the plan, and one for each task. An event costs what the calls cost that it reaches, and else what the
 * queue of waiting tasks does.
 */
#ifndef SCHED_H
#define SCHED_H

#include <stdbool.h>
#include <stddef.h>
#include <stdint.h>

#include "sched_version.h"

#ifdef __cplusplus
extern "C" {
#endif

/* How a call ended. The numbers stay as they are. */
typedef uint32_t sched_status;

enum {
    SCHED_DONE = 0,         /* the call did what it says */
    SCHED_NO_MEMORY = 1,    /* malloc refused */
    SCHED_NO_EXECUTOR = 2,  /* the slot is empty */
    SCHED_HAS_EXECUTOR = 3, /* the slot has an executor already */
    SCHED_NO_PLAN = 4,      /* the text is no plan: the fault says why */
    SCHED_WORKERS = 5,      /* the number of workers is not 1 to 64 */
    SCHED_LIMIT = 6,        /* the limit on events is not 1 to 4,294,967,295 */
    SCHED_FULL = 7,         /* as many events were taken as the limit allows */
    SCHED_UNKNOWN_TASK = 8, /* the plan has no task of this number */
    SCHED_NULL = 9,         /* a pointer is NULL */
    SCHED_NO_WORKER = 10,   /* the worker is above 255, so that no event can name it */
    SCHED_NOT_STARTED = 11  /* the last event was no start that got a task */
};

/* Room for an executor, with one or without. Its members are the library's. */
typedef struct sched_slot {
    void *hidden;
    bool full;
} sched_slot;

/* A slot without an executor. */
#ifdef __cplusplus
#define SCHED_EMPTY sched_slot{nullptr, false}
#else
#define SCHED_EMPTY {NULL, false}
#endif

/* What is wrong with a plan's text. */
enum {
    SCHED_FAULT_NONE = 0,
    SCHED_FAULT_TOO_LONG = 1,       /* more than 1,048,576 bytes */
    SCHED_FAULT_TOML = 2,           /* no UTF-8, or no TOML document */
    SCHED_FAULT_VERSION = 3,        /* `version` is missing, or neither 1 nor 2 */
    SCHED_FAULT_UNKNOWN_KEY = 4,    /* a table has a key that does not belong there */
    SCHED_FAULT_MISSING = 5,        /* a key is missing */
    SCHED_FAULT_WRONG_TYPE = 6,     /* a value is not what its key wants */
    SCHED_FAULT_BAD_UNIT = 7,       /* a unit is none of those of the plan's version */
    SCHED_FAULT_BAD_TIMES = 8,      /* a `times` is not 1 to 65,536 */
    SCHED_FAULT_NEGATIVE = 9,       /* a moment, an offset or an `every` is below 0 */
    SCHED_FAULT_BAD_NAME = 10,      /* a name is not 1 to 32 ASCII letters, digits, `-` and `_` */
    SCHED_FAULT_DUPLICATE_NAME = 11,/* a submission has the name of one before it */
    SCHED_FAULT_UNKNOWN_NAME = 12,  /* a cancel names no submission that stands before it */
    SCHED_FAULT_AMBIGUOUS = 13,     /* a cancel names a submission of an earlier block that is repeated */
    SCHED_FAULT_OUT_OF_ORDER = 14,  /* a block begins before the last call of those before it, an offset is below that of the call
                                     * before it, or a call of a repeated block comes after the next iteration begins */
    SCHED_FAULT_TOO_LARGE = 15,     /* a moment, an offset, a delay, a period or an `every` is above 2^62 nanoseconds, or so is the
                                     * moment of a call in the last iteration of its block */
    SCHED_FAULT_TOO_MANY = 16       /* more than 256 blocks, 256 calls in a block, or 65,536 calls with all repetitions */
};

/* What is wrong with a plan's text, and where. */
typedef struct sched_fault {
    uint32_t kind;  /* SCHED_FAULT_.. */
    uint32_t block; /* the block, counted from 1; 0: in no block */
    uint32_t call;  /* the call in its block, counted from 1; 0: in no call */
} sched_fault;

/* How many bytes are enough for any line, with its newline. */
#define SCHED_LINE_ROOM 128

/* What of a text was copied. */
typedef struct sched_copied {
    size_t lines; /* how many whole lines */
    size_t bytes; /* how many bytes, with the newline of each line */
} sched_copied;

/* How far an executor is. */
typedef struct sched_state {
    uint64_t now;   /* the moment, in nanoseconds: the greatest of the accepted clocks and the calls made */
    size_t lines;   /* how many lines the last event was answered */
    size_t tasks;   /* how many tasks the plan has */
    uint32_t taken; /* how many events were taken */
    uint32_t ripe;  /* 1: the due moment of some task in the queue is reached; 0: none is, and a start gets no task */
} sched_state;

/* A run that was started. */
typedef struct sched_run {
    uint64_t run;    /* the number of the run, from 0 */
    uint64_t due;    /* the due moment of the run, in nanoseconds */
    uint32_t task;   /* the task: the submissions of the plan are counted from 0 */
    uint32_t worker; /* the worker that runs it */
} sched_run;

/* How far a task has come. */
enum {
    SCHED_TASK_VACANT = 0,  /* not submitted yet, or its submission was refused */
    SCHED_TASK_NEW = 1,     /* waits for its run, or was cancelled before that began */
    SCHED_TASK_RUNNING = 2, /* is run, or was cancelled meanwhile or as its run ended */
    SCHED_TASK_DONE = 3,    /* its last run is done */
    SCHED_TASK_FAILED = 4   /* its last run failed */
};

/* How far a task is. A cancelled task stands still, also once the run that was under way has ended. */
typedef struct sched_task {
    uint32_t phase;     /* SCHED_TASK_.. */
    uint32_t run;       /* the number of the run, from 0 */
    uint32_t cancelled; /* 1: it was cancelled; 0: it was not */
} sched_task;

/* The functions of the library. They are as those without `ref` in their names, but for NULL: no pointer may be NULL, and
 * each is aligned as its type. */
sched_status sched_ref_new(sched_slot *slot, const uint8_t *plan, size_t length, uint32_t workers, uint64_t limit, sched_fault *fault);
sched_status sched_ref_free(sched_slot *slot);
sched_status sched_ref_clock(sched_slot *slot, uint64_t moment);
sched_status sched_ref_start(sched_slot *slot, uint32_t worker);
sched_status sched_ref_finish(sched_slot *slot, uint32_t worker, uint64_t value);
sched_status sched_ref_fail(sched_slot *slot, uint32_t worker, uint32_t code);
sched_status sched_ref_cancel(sched_slot *slot, uint32_t task);
sched_status sched_ref_text(sched_slot *slot, size_t from, uint8_t *out, size_t room, sched_copied *copied);
sched_status sched_ref_state_of(sched_slot *slot, sched_state *state);
sched_status sched_ref_task_of(sched_slot *slot, uint32_t task, sched_task *state);
sched_status sched_ref_started(sched_slot *slot, sched_run *run);

/* Makes an executor of a plan's text, `length` bytes of TOML, at most 1,048,576, in an empty slot, before anything happened.
 * `workers` is the number of workers, 1 to 64: events name them from 0. `limit` is how many events the executor takes, 1 to
 * 4,294,967,295.
 * SCHED_HAS_EXECUTOR: the slot is full. Then SCHED_NO_PLAN: the text is no plan, and `fault` says what is wrong with it, and
 * where; on all other answers but SCHED_NULL `fault` is zeros. Then SCHED_WORKERS, then SCHED_LIMIT. SCHED_NO_MEMORY: malloc
 * refused, and nothing is said of the text; it may come in place of each of the last three and of SCHED_DONE. The slot is as it
 * was on each of these. That no memory is kept then is tested. `plan` may be NULL where length is 0. */
static inline sched_status sched_new(sched_slot *slot, const uint8_t *plan, size_t length, uint32_t workers, uint64_t limit, sched_fault *fault) {
    static const uint8_t none = 0;
    if (slot == NULL || fault == NULL || (plan == NULL && length != 0)) return SCHED_NULL;
    return sched_ref_new(slot, plan == NULL ? &none : plan, length, workers, limit, fault);
}

/* Frees the executor, and leaves the slot empty. SCHED_NO_EXECUTOR: it was empty. */
static inline sched_status sched_free(sched_slot *slot) {
    return slot == NULL ? (sched_status)SCHED_NULL : sched_ref_free(slot);
}

/* The five events. Each is taken where the answer is SCHED_DONE, and the lines are those that answer it. SCHED_NO_EXECUTOR. Then, of
 * an event of a worker, SCHED_NO_WORKER: the worker is above 255. Then SCHED_FULL: as many events were taken as the limit allows.
 *
 * An event that makes no sense is taken too: a clock that goes back or passes 2^62, a worker below 256 that is none, one that starts
 * while it has a run or finishes without one, a task that is none. Its one line, M error .., says what is wrong, and nothing
 * changes but the number of events taken. */

/* The clock shows a moment, in nanoseconds. Where it does not go back, nor passes 2^62, the calls of the plan whose moments it
 * reaches are made first, each answered by its lines. No other event makes a call: before the first clock no task was submitted,
 * and a start is idle even where a call has the moment 0. No call of the library tells the next due moment: lines do. */
static inline sched_status sched_clock(sched_slot *slot, uint64_t moment) {
    return slot == NULL ? (sched_status)SCHED_NULL : sched_ref_clock(slot, moment);
}

/* A worker asks for work. The line names the task, its run and the due moment, as sched_started tells them, or says that the worker
 * is idle, or what is wrong. */
static inline sched_status sched_start(sched_slot *slot, uint32_t worker) {
    return slot == NULL ? (sched_status)SCHED_NULL : sched_ref_start(slot, worker);
}

/* The run of a worker has ended with a value. */
static inline sched_status sched_finish(sched_slot *slot, uint32_t worker, uint64_t value) {
    return slot == NULL ? (sched_status)SCHED_NULL : sched_ref_finish(slot, worker, value);
}

/* The run of a worker has failed, with a code of the program's own. It is the last run of its task. */
static inline sched_status sched_fail(sched_slot *slot, uint32_t worker, uint32_t code) {
    return slot == NULL ? (sched_status)SCHED_NULL : sched_ref_fail(slot, worker, code);
}

/* A task is to be cancelled, by its number: the submissions of the plan are counted from 0. A cancelled task may stay in the queue
 * until a start meets it, and counts as ripe there. */
static inline sched_status sched_cancel(sched_slot *slot, uint32_t task) {
    return slot == NULL ? (sched_status)SCHED_NULL : sched_ref_cancel(slot, task);
}

/* Writes which run the last event that was taken started. SCHED_NO_EXECUTOR. SCHED_NOT_STARTED: its last line is no start of a run:
 * it was another event, or a start that is idle or in error, or no event was taken; zeros are written then. */
static inline sched_status sched_started(sched_slot *slot, sched_run *run) {
    return slot == NULL || run == NULL ? (sched_status)SCHED_NULL : sched_ref_started(slot, run);
}

/* Copies the text of the lines that answer the last event that was taken into a buffer of `room` bytes, from line `from` on,
 * counted from 0, and writes to `copied` how much: whole lines, each of which begins where SCHED_LINE_ROOM bytes of room are left,
 * until no line is left or no such room. The line to go on with is `from + copied->lines`; no line is left where `copied->lines`
 * is 0 and there was room for one. What stands in the buffer behind the text is lost. SCHED_NO_EXECUTOR. `out` may be NULL where
 * room is 0. */
static inline sched_status sched_text(sched_slot *slot, size_t from, uint8_t *out, size_t room, sched_copied *copied) {
    uint8_t none = 0;
    if (slot == NULL || copied == NULL || (out == NULL && room != 0)) return SCHED_NULL;
    return sched_ref_text(slot, from, out == NULL ? &none : out, room, copied);
}

/* Writes how far the executor is. SCHED_NO_EXECUTOR. */
static inline sched_status sched_state_of(sched_slot *slot, sched_state *state) {
    return slot == NULL || state == NULL ? (sched_status)SCHED_NULL : sched_ref_state_of(slot, state);
}

/* Writes how far a task is, by its number. SCHED_NO_EXECUTOR. SCHED_UNKNOWN_TASK: the plan has no task of this number, and zeros
 * are written. */
static inline sched_status sched_task_of(sched_slot *slot, uint32_t task, sched_task *state) {
    return slot == NULL || state == NULL ? (sched_status)SCHED_NULL : sched_ref_task_of(slot, task, state);
}

/* What a status means, in words. */
static inline const char *sched_status_text(sched_status status) {
    static const char *const texts[] = {"done", "out of memory", "the slot is empty", "the slot has an executor already",
        "the text is no plan", "the number of workers is not 1 to 64", "the limit on events is not 1 to 4,294,967,295",
        "the limit on events is reached", "no such task", "a pointer is NULL", "the worker is above 255",
        "no run was started"};
    return status <= SCHED_NOT_STARTED ? texts[status] : "no such status";
}

#ifdef __cplusplus
}
#endif

#endif
