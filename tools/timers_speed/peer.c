/* Timers as a C programmer writes them by hand, behind the names of include/timers.h: nothing of it is proved.
 *
 * A slab holds the tasks by their slots. Those that wait stand in a heap by due moment and number, binary unless WAYS says how
 * many entries stand below each, and the place of each is known, so that a cancel takes it out at once. The tasks that are kept after a cancel stand in a second heap. The lines
 * of the last call are written when they are asked for.
 */
#include "timers.h"

#include <inttypes.h>
#include <stdarg.h>
#include <stdio.h>
#include <stdlib.h>
#include <string.h>

#ifndef WAYS
#define WAYS 2
#endif

#define LONGEST (UINT64_C(1) << 62)
#define MOST_WORKERS 255
#define MOST_SLOTS (UINT32_C(1) << 30)
#define NO_SLOT UINT32_MAX

/* How a task is timed. */
enum timing { ONCE, RATE, FIXED };

/* What a slot holds. */
enum stage { EMPTY, WAITING, RUNNING, KEPT };

struct task {
    uint64_t number;
    uint64_t due;
    uint64_t run;
    uint64_t period; /* or the fixed delay, in nanoseconds; 0 of a task that runs once */
    uint64_t data;
    uint8_t timing;
    uint8_t stage;
    bool cancelled;
};

/* A task in a heap, with what it is ordered by. */
struct entry {
    uint64_t due;
    uint64_t number;
    uint32_t slot;
};

struct heap {
    struct entry *entries;
    uint32_t size;
};

/* What the last call answered, of which its lines are written. */
enum answer {
    NOTHING, SUBMITTED, REJECTED, OUTSIDE, PURGED, POLICY, SHUTDOWN, SHUTDOWN_AGAIN, SHUTDOWN_NOW, ASKED, CLOCK, STARTED, IDLE, FINISHED
};

struct last {
    enum answer answer;
    uint32_t kind;   /* the timing, the effect, the policy, or the outcome */
    uint32_t worker;
    uint64_t number; /* of the task */
    uint64_t run;    /* its number; or how many tasks are queued */
    uint64_t value;  /* the due moment, or that which the run ended with; or how many tasks run; or the value of a policy */
};

struct timers {
    struct task *tasks;
    uint32_t *places; /* by slots: that of the task in its heap; of an empty slot, the next empty one */
    struct timers_gone *ended; /* what the last call ended, with room for each slot */
    struct heap queue;
    struct heap kept;
    uint32_t slots;
    uint32_t empty; /* the first empty slot, or NO_SLOT */
    uint32_t alive;
    uint32_t ended_count;
    uint64_t now;
    uint64_t earliest; /* the least moment of the call that comes next */
    uint64_t numbers;
    uint64_t accepted; /* of so many submissions, the first ones: once shut, none is accepted any more */
    uint32_t policies;
    uint32_t workers;
    bool shut;
    bool stopped;
    struct last last;
    uint32_t work[MOST_WORKERS]; /* the slot of the task that each worker runs, or NO_SLOT */
};

/* The heaps. */

static bool comes_before(const struct entry *a, const struct entry *b) {
    return a->due < b->due || (a->due == b->due && a->number < b->number);
}

static void put(struct timers *t, struct heap *heap, uint32_t place, struct entry entry) {
    heap->entries[place] = entry;
    t->places[entry.slot] = place;
}

static void rise(struct timers *t, struct heap *heap, uint32_t place, struct entry entry) {
    while (place > 0) {
        uint32_t parent = (place - 1) / WAYS;
        if (!comes_before(&entry, &heap->entries[parent])) break;
        put(t, heap, place, heap->entries[parent]);
        place = parent;
    }
    put(t, heap, place, entry);
}

/* The place of the least of the entries right below one, of which this is the first. */
static uint32_t least_from(const struct heap *heap, uint32_t child) {
#if WAYS == 2
    return child + 1 < heap->size && comes_before(&heap->entries[child + 1], &heap->entries[child]) ? child + 1 : child;
#else
    uint32_t end = heap->size - child < WAYS ? heap->size : child + WAYS, least = child;
    for (uint32_t other = child + 1; other < end; other++) {
        if (comes_before(&heap->entries[other], &heap->entries[least])) least = other;
    }
    return least;
#endif
}

static void sink(struct timers *t, struct heap *heap, uint32_t place, struct entry entry) {
    for (;;) {
        uint32_t child = WAYS * place + 1;
        if (child >= heap->size) break;
        child = least_from(heap, child);
        if (!comes_before(&heap->entries[child], &entry)) break;
        put(t, heap, place, heap->entries[child]);
        place = child;
    }
    put(t, heap, place, entry);
}

static void insert(struct timers *t, struct heap *heap, uint32_t slot) {
    struct entry entry = {t->tasks[slot].due, t->tasks[slot].number, slot};
    rise(t, heap, heap->size++, entry);
}

static void take_out(struct timers *t, struct heap *heap, uint32_t slot) {
    uint32_t place = t->places[slot];
    struct entry entry = heap->entries[--heap->size];
    if (place == heap->size) return;
    if (place > 0 && comes_before(&entry, &heap->entries[(place - 1) / WAYS])) rise(t, heap, place, entry);
    else sink(t, heap, place, entry);
}

/* The slots. */

static void release(struct timers *t, uint32_t slot) {
    t->tasks[slot].stage = EMPTY;
    t->places[slot] = t->empty;
    t->empty = slot;
    t->alive--;
}

static void drop_first_kept(struct timers *t) {
    uint32_t slot = t->kept.entries[0].slot;
    take_out(t, &t->kept, slot);
    release(t, slot);
}

/* Makes an array longer, and says whether it is: where memory is refused it is as it was. */
static bool lengthen(void **array, uint32_t length, size_t size) {
    void *longer = (size_t)length > SIZE_MAX / size ? NULL : realloc(*array, length * size);
    if (longer == NULL) return false;
    *array = longer;
    return true;
}

static bool grow(struct timers *t, uint32_t slots) {
    void *tasks = t->tasks, *places = t->places, *ended = t->ended, *queue = t->queue.entries, *kept = t->kept.entries;
    bool grown = lengthen(&tasks, slots, sizeof *t->tasks) && lengthen(&places, slots, sizeof *t->places) &&
                 lengthen(&ended, slots, sizeof *t->ended) && lengthen(&queue, slots, sizeof *t->queue.entries) &&
                 lengthen(&kept, slots, sizeof *t->kept.entries);
    t->tasks = tasks;
    t->places = places;
    t->ended = ended;
    t->queue.entries = queue;
    t->kept.entries = kept;
    if (!grown) return false;
    while (t->slots < slots) {
        struct task none = {0, 0, 0, 0, 0, ONCE, EMPTY, false};
        t->tasks[t->slots] = none;
        t->places[t->slots] = t->empty;
        t->empty = t->slots++;
    }
    return true;
}

/* The slot of a task, or NO_SLOT where it is gone. That of the ref is right, unless the ref is out of date, or made up. */
static uint32_t slot_of(const struct timers *t, const timers_ref *task) {
    uint32_t slot = task->slot;
    if (slot < t->slots && t->tasks[slot].stage != EMPTY && t->tasks[slot].number == task->number) return slot;
    for (slot = 0; slot < t->slots; slot++)
        if (t->tasks[slot].stage != EMPTY && t->tasks[slot].number == task->number) return slot;
    return NO_SLOT;
}

/* What every call begins with. */

static struct timers *timers_in(const timers_slot *slot) {
    return slot->full ? slot->hidden : NULL;
}

static uint64_t greater(uint64_t a, uint64_t b) {
    return a > b ? a : b;
}

/* The moment of a call that is no poll and no finish. */
static uint64_t moment_of(const struct timers *t, uint64_t now) {
    return greater(now, greater(t->now, t->earliest));
}

static void note(struct timers *t, struct last last) {
    t->last = last;
    t->ended_count = 0;
}

static void pass(struct timers *t, uint64_t moment, struct last last) {
    t->now = moment;
    note(t, last);
}

/* The clock of a poll or a finish, which is made at this moment, or now. */
static void move_clock(struct timers *t, uint64_t now) {
    struct last clock = {CLOCK, 0, 0, 0, 0, 0};
    pass(t, greater(now, t->now), clock);
    t->earliest = t->now + 1;
}

/* Making and freeing. */

/* Copied, since a compiler makes calloc of a malloc whose block is set to zeros. */
static const struct timers fresh = {.empty = NO_SLOT, .policies = 1u << TIMERS_POLICY_EXECUTE};

timers_status timers_ref_new(timers_slot *slot, uint32_t workers) {
    if (slot->full) return TIMERS_HAS_TIMERS;
    if (workers < 1 || workers > MOST_WORKERS) return TIMERS_WORKERS;
    struct timers *t = malloc(sizeof *t);
    if (t == NULL) return TIMERS_NO_MEMORY;
    *t = fresh;
    t->workers = workers;
    for (uint32_t w = 0; w < MOST_WORKERS; w++) t->work[w] = NO_SLOT;
    slot->hidden = t;
    slot->full = true;
    return TIMERS_DONE;
}

timers_status timers_ref_free(timers_slot *slot) {
    struct timers *t = timers_in(slot);
    if (t == NULL) return TIMERS_NO_TIMERS;
    free(t->tasks);
    free(t->places);
    free(t->ended);
    free(t->queue.entries);
    free(t->kept.entries);
    free(t);
    slot->hidden = NULL;
    slot->full = false;
    return TIMERS_DONE;
}

timers_status timers_ref_reserve(timers_slot *slot, uint32_t tasks) {
    struct timers *t = timers_in(slot);
    if (t == NULL) return TIMERS_NO_TIMERS;
    if (tasks <= t->slots) return TIMERS_DONE;
    return grow(t, tasks) ? TIMERS_DONE : TIMERS_NO_MEMORY;
}

/* Submissions. */

static timers_status reject(struct timers *t, uint64_t moment, timers_ref *task) {
    struct last last = {REJECTED, 0, 0, t->numbers, 0, 0};
    task->number = t->numbers++;
    task->slot = NO_SLOT;
    pass(t, moment, last);
    return TIMERS_SHUT;
}

static bool make_slot(struct timers *t) {
    if (t->empty != NO_SLOT) return true;
    return t->slots < MOST_SLOTS && grow(t, 2 * t->slots + 4);
}

static void accept(struct timers *t, uint64_t moment, enum timing timing, uint64_t delay, uint64_t period, uint64_t data,
                   timers_ref *ref) {
    uint32_t slot = t->empty;
    struct task task = {t->numbers, moment + delay, 0, period, data, timing, WAITING, false};
    struct last last = {SUBMITTED, timing, 0, t->numbers, 0, moment + delay};
    t->empty = t->places[slot];
    t->tasks[slot] = task;
    t->alive++;
    insert(t, &t->queue, slot);
    ref->number = t->numbers++;
    ref->slot = slot;
    t->accepted = t->numbers;
    pass(t, moment, last);
}

static timers_status submit(timers_slot *slot, uint64_t now, enum timing timing, uint64_t delay, uint64_t period, uint64_t data,
                            timers_ref *task) {
    struct timers *t = timers_in(slot);
    task->number = 0;
    task->slot = 0;
    if (t == NULL) return TIMERS_NO_TIMERS;
    if (timing != ONCE && period == 0) return TIMERS_ILLEGAL;
    if (delay > LONGEST || period > LONGEST) return TIMERS_TOO_LONG;
    uint64_t moment = moment_of(t, now);
    if (moment > LONGEST) return TIMERS_TOO_FAR;
    if (t->numbers == UINT64_MAX) return TIMERS_FULL;
    if (t->shut) return reject(t, moment, task);
    if (!make_slot(t)) return TIMERS_NO_MEMORY;
    accept(t, moment, timing, delay, period, data, task);
    return TIMERS_DONE;
}

timers_status timers_ref_schedule(timers_slot *slot, uint64_t now, uint64_t delay, uint64_t data, timers_ref *task) {
    return submit(slot, now, ONCE, delay, 0, data, task);
}

timers_status timers_ref_execute(timers_slot *slot, uint64_t now, uint64_t data, timers_ref *task) {
    return submit(slot, now, ONCE, 0, 0, data, task);
}

timers_status timers_ref_rate(timers_slot *slot, uint64_t now, uint64_t first, uint64_t period, uint64_t data, timers_ref *task) {
    return submit(slot, now, RATE, first, period, data, task);
}

timers_status timers_ref_fixed(timers_slot *slot, uint64_t now, uint64_t first, uint64_t delay, uint64_t data, timers_ref *task) {
    return submit(slot, now, FIXED, first, delay, data, task);
}

/* Cancels. */

static uint32_t cancel_in(struct timers *t, uint32_t slot) {
    struct task *task = &t->tasks[slot];
    if (task->cancelled) return TIMERS_CANCEL_NO;
    task->cancelled = true;
    if (task->stage == RUNNING) return TIMERS_CANCEL_YES;
    take_out(t, &t->queue, slot);
    if (t->policies >> TIMERS_POLICY_REMOVE & 1) {
        release(t, slot);
    } else {
        task->stage = KEPT;
        insert(t, &t->kept, slot);
    }
    return TIMERS_CANCEL_YES;
}

timers_status timers_ref_cancel(timers_slot *slot, const timers_ref *task, uint32_t *effect) {
    struct timers *t = timers_in(slot);
    struct last last = {OUTSIDE, 0, 0, task->number, 0, 0};
    *effect = 0;
    if (t == NULL) return TIMERS_NO_TIMERS;
    if (task->number >= t->numbers) return TIMERS_NO_TASK;
    uint32_t held = slot_of(t, task);
    if (held != NO_SLOT) *effect = cancel_in(t, held);
    else *effect = task->number < t->accepted ? TIMERS_CANCEL_NO : TIMERS_CANCEL_NONE;
    last.kind = *effect;
    note(t, last);
    return TIMERS_DONE;
}

timers_status timers_ref_purge(timers_slot *slot) {
    struct timers *t = timers_in(slot);
    struct last last = {PURGED, 0, 0, 0, 0, 0};
    if (t == NULL) return TIMERS_NO_TIMERS;
    while (t->kept.size > 0) drop_first_kept(t);
    note(t, last);
    return TIMERS_DONE;
}

/* Polls. */

static void begin(struct timers *t, uint32_t worker, timers_run *run) {
    uint32_t slot = t->queue.entries[0].slot;
    struct task *task = &t->tasks[slot];
    timers_run begun = {{task->number, slot}, task->run, task->due, task->data, worker};
    struct last last = {STARTED, 0, worker, task->number, task->run, task->due};
    take_out(t, &t->queue, slot);
    task->stage = RUNNING;
    t->work[worker] = slot;
    *run = begun;
    note(t, last);
}

/* Polls, and writes to the run where one is begun alone. */
static timers_status poll_one(struct timers *t, uint64_t now, uint32_t worker, timers_run *run) {
    struct last idle = {IDLE, 0, worker, 0, 0, 0};
    if (worker >= t->workers) return TIMERS_NO_WORKER;
    if (t->work[worker] != NO_SLOT) return TIMERS_BUSY;
    if (now > LONGEST) return TIMERS_TOO_FAR;
    move_clock(t, now);
    const struct entry *first = t->queue.size > 0 && t->queue.entries[0].due <= t->now ? t->queue.entries : NULL;
    if (first != NULL && t->tasks[first->slot].run == UINT64_MAX) return TIMERS_FULL;
    while (t->kept.size > 0 && t->kept.entries[0].due <= t->now && (first == NULL || comes_before(t->kept.entries, first)))
        drop_first_kept(t);
    if (first == NULL) {
        note(t, idle);
        return TIMERS_IDLE;
    }
    begin(t, worker, run);
    return TIMERS_DONE;
}

timers_status timers_ref_poll(timers_slot *slot, uint64_t now, uint32_t worker, timers_run *run) {
    struct timers *t = timers_in(slot);
    const timers_run none = {{0, 0}, 0, 0, 0, 0};
    timers_status status = t == NULL ? (timers_status)TIMERS_NO_TIMERS : poll_one(t, now, worker, run);
    if (status != TIMERS_DONE) *run = none;
    return status;
}

timers_status timers_ref_poll_many(timers_slot *slot, uint64_t now, timers_run *runs, size_t n, size_t *begun) {
    struct timers *t = timers_in(slot);
    *begun = 0;
    if (t == NULL) return TIMERS_NO_TIMERS;
    while (*begun < n) {
        timers_status status = poll_one(t, now, runs[*begun].worker, &runs[*begun]);
        if (status != TIMERS_DONE) return status;
        ++*begun;
    }
    return TIMERS_DONE;
}

/* Finishes. */

static uint32_t outcome_of(const struct timers *t, const struct task *task, bool failed) {
    if (task->cancelled) return TIMERS_OUTCOME_DROPPED;
    if (failed) return TIMERS_OUTCOME_FAILED;
    if (task->timing == ONCE) return TIMERS_OUTCOME_DONE;
    if (t->stopped || (t->shut && !(t->policies >> TIMERS_POLICY_CONTINUE & 1))) return TIMERS_OUTCOME_ENDED;
    return TIMERS_OUTCOME_AGAIN;
}

static void go_on(struct timers *t, uint32_t slot) {
    struct task *task = &t->tasks[slot];
    task->due = (task->timing == RATE ? task->due : t->now) + task->period;
    task->run++;
    task->stage = WAITING;
    insert(t, &t->queue, slot);
}

static void end_run(struct timers *t, uint32_t worker, uint64_t value, bool failed, timers_end *end) {
    uint32_t slot = t->work[worker];
    struct task *task = &t->tasks[slot];
    timers_end ended = {{task->number, slot}, task->run, task->data, value, outcome_of(t, task, failed)};
    t->work[worker] = NO_SLOT;
    if (ended.outcome == TIMERS_OUTCOME_AGAIN) {
        go_on(t, slot);
        ended.value = task->due;
    } else {
        if (ended.outcome >= TIMERS_OUTCOME_DROPPED) ended.value = 0;
        release(t, slot);
    }
    struct last last = {FINISHED, ended.outcome, worker, ended.task.number, ended.run, ended.value};
    *end = ended;
    note(t, last);
}

/* Finishes, and writes to the end where a run is ended alone. */
static timers_status finish_one(struct timers *t, uint64_t now, uint32_t worker, uint64_t value, bool failed, timers_end *end) {
    if (worker >= t->workers) return TIMERS_NO_WORKER;
    if (t->work[worker] == NO_SLOT) return TIMERS_NOT_RUNNING;
    if (now > LONGEST) return TIMERS_TOO_FAR;
    move_clock(t, now);
    end_run(t, worker, value, failed, end);
    return TIMERS_DONE;
}

static timers_status finish(timers_slot *slot, uint64_t now, uint32_t worker, uint64_t value, bool failed, timers_end *end) {
    struct timers *t = timers_in(slot);
    const timers_end none = {{0, 0}, 0, 0, 0, 0};
    timers_status status = t == NULL ? (timers_status)TIMERS_NO_TIMERS : finish_one(t, now, worker, value, failed, end);
    if (status != TIMERS_DONE) *end = none;
    return status;
}

timers_status timers_ref_finish(timers_slot *slot, uint64_t now, uint32_t worker, uint64_t value, timers_end *end) {
    return finish(slot, now, worker, value, false, end);
}

timers_status timers_ref_fail(timers_slot *slot, uint64_t now, uint32_t worker, uint32_t code, timers_end *end) {
    return finish(slot, now, worker, code, true, end);
}

timers_status timers_ref_finish_many(timers_slot *slot, uint64_t now, const timers_ending *endings, size_t endings_length,
                                     timers_end *ends, size_t ends_length, size_t *ended) {
    struct timers *t = timers_in(slot);
    size_t n = endings_length < ends_length ? endings_length : ends_length;
    *ended = 0;
    if (t == NULL) return TIMERS_NO_TIMERS;
    while (*ended < n) {
        const timers_ending *ending = &endings[*ended];
        if (ending->failed != 0 && ending->value > UINT32_MAX) return TIMERS_ILLEGAL;
        timers_status status = finish_one(t, now, ending->worker, ending->value, ending->failed != 0, &ends[*ended]);
        if (status != TIMERS_DONE) return status;
        ++*ended;
    }
    return TIMERS_DONE;
}

/* Looking. */

timers_status timers_ref_next_due(timers_slot *slot, uint64_t *due) {
    struct timers *t = timers_in(slot);
    *due = 0;
    if (t == NULL) return TIMERS_NO_TIMERS;
    if (t->queue.size == 0) return TIMERS_IDLE;
    *due = t->queue.entries[0].due;
    return TIMERS_DONE;
}

timers_status timers_ref_head_due(timers_slot *slot, uint64_t *due) {
    struct timers *t = timers_in(slot);
    *due = 0;
    if (t == NULL) return TIMERS_NO_TIMERS;
    if (t->queue.size == 0 && t->kept.size == 0) return TIMERS_IDLE;
    if (t->queue.size == 0 || (t->kept.size > 0 && comes_before(t->kept.entries, t->queue.entries))) *due = t->kept.entries[0].due;
    else *due = t->queue.entries[0].due;
    return TIMERS_DONE;
}

timers_status timers_ref_task_of(timers_slot *slot, const timers_ref *task, timers_task *state) {
    struct timers *t = timers_in(slot);
    const timers_task gone = {0, 0, TIMERS_TASK_GONE, 0};
    static const uint32_t phases[] = {TIMERS_TASK_GONE, TIMERS_TASK_WAITING, TIMERS_TASK_RUNNING, TIMERS_TASK_KEPT};
    *state = gone;
    if (t == NULL) return TIMERS_NO_TIMERS;
    if (task->number >= t->numbers) return TIMERS_NO_TASK;
    uint32_t held = slot_of(t, task);
    if (held == NO_SLOT) return TIMERS_DONE;
    const struct task *found = &t->tasks[held];
    state->run = found->run;
    state->due = found->due;
    state->phase = phases[found->stage];
    state->cancelled = found->cancelled;
    return TIMERS_DONE;
}

static size_t lines_of(const struct timers *t) {
    switch (t->last.answer) {
    case NOTHING: return 0;
    case STARTED: case IDLE: case FINISHED: return 2;
    default: return (size_t)t->ended_count + 1;
    }
}

timers_status timers_ref_state_of(timers_slot *slot, timers_state *state) {
    struct timers *t = timers_in(slot);
    memset(state, 0, sizeof *state);
    if (t == NULL) return TIMERS_NO_TIMERS;
    state->now = t->now;
    state->numbers = t->numbers;
    state->alive = t->alive;
    state->ended = t->ended_count;
    state->lines = lines_of(t);
    state->policies = t->policies;
    state->shut = t->shut;
    state->terminated = t->shut && t->alive == 0;
    return TIMERS_DONE;
}

timers_status timers_ref_ask(timers_slot *slot, uint64_t now, timers_counts *counts) {
    struct timers *t = timers_in(slot);
    memset(counts, 0, sizeof *counts);
    if (t == NULL) return TIMERS_NO_TIMERS;
    uint64_t moment = moment_of(t, now);
    if (moment > LONGEST) return TIMERS_TOO_FAR;
    counts->queue = (size_t)t->queue.size + t->kept.size;
    counts->running = t->alive - counts->queue;
    counts->shut = t->shut;
    counts->terminated = t->shut && t->alive == 0;
    struct last last = {ASKED, 0, 0, 0, counts->queue, counts->running};
    pass(t, moment, last);
    return TIMERS_DONE;
}

/* Policies and shutdowns. */

static bool is_ended(const struct timers *t, const struct task *task) {
    if (task->stage != WAITING) return false;
    if (t->stopped) return true;
    if (task->timing == ONCE) return !(t->policies >> TIMERS_POLICY_EXECUTE & 1) && t->now < task->due;
    return !(t->policies >> TIMERS_POLICY_CONTINUE & 1);
}

static int by_number(const void *a, const void *b) {
    const timers_gone *left = a, *right = b;
    return (left->task.number > right->task.number) - (left->task.number < right->task.number);
}

static void sweep(struct timers *t) {
    while (t->kept.size > 0) drop_first_kept(t);
    for (uint32_t slot = 0; slot < t->slots; slot++) {
        if (!is_ended(t, &t->tasks[slot])) continue;
        timers_gone gone = {{t->tasks[slot].number, slot}, t->tasks[slot].data};
        take_out(t, &t->queue, slot);
        release(t, slot);
        t->ended[t->ended_count++] = gone;
    }
    if (t->ended_count > 1) qsort(t->ended, t->ended_count, sizeof *t->ended, by_number);
}

timers_status timers_ref_set_policy(timers_slot *slot, uint64_t now, uint32_t policy, bool value) {
    struct timers *t = timers_in(slot);
    struct last last = {POLICY, policy, 0, 0, 0, value};
    if (t == NULL) return TIMERS_NO_TIMERS;
    if (policy > TIMERS_POLICY_REMOVE) return TIMERS_ILLEGAL;
    uint64_t moment = moment_of(t, now);
    if (moment > LONGEST) return TIMERS_TOO_FAR;
    t->policies = (t->policies & ~(1u << policy)) | (uint32_t)value << policy;
    pass(t, moment, last);
    if (t->shut && !value && policy != TIMERS_POLICY_REMOVE) sweep(t);
    return TIMERS_DONE;
}

timers_status timers_ref_shutdown(timers_slot *slot, uint64_t now, uint32_t *first) {
    struct timers *t = timers_in(slot);
    struct last last = {SHUTDOWN, 0, 0, 0, 0, 0};
    *first = 0;
    if (t == NULL) return TIMERS_NO_TIMERS;
    uint64_t moment = moment_of(t, now);
    if (moment > LONGEST) return TIMERS_TOO_FAR;
    *first = !t->shut;
    if (t->shut) last.answer = SHUTDOWN_AGAIN;
    t->shut = true;
    pass(t, moment, last);
    if (*first) sweep(t);
    return TIMERS_DONE;
}

timers_status timers_ref_shutdown_now(timers_slot *slot, uint64_t now) {
    struct timers *t = timers_in(slot);
    struct last last = {SHUTDOWN_NOW, 0, 0, 0, 0, 0};
    if (t == NULL) return TIMERS_NO_TIMERS;
    uint64_t moment = moment_of(t, now);
    if (moment > LONGEST) return TIMERS_TOO_FAR;
    t->shut = true;
    t->stopped = true;
    pass(t, moment, last);
    sweep(t);
    return TIMERS_DONE;
}

timers_status timers_ref_ended(timers_slot *slot, size_t place, timers_gone *gone) {
    struct timers *t = timers_in(slot);
    const timers_gone none = {{0, 0}, 0};
    *gone = none;
    if (t == NULL) return TIMERS_NO_TIMERS;
    if (place >= t->ended_count) return TIMERS_IDLE;
    *gone = t->ended[place];
    return TIMERS_DONE;
}

/* The lines of the last call. */

/* Writes a part of a line behind its first `length` bytes, and answers its length then. There is room for any line. */
static size_t add(char *line, size_t length, const char *format, ...) {
    va_list values;
    va_start(values, format);
    int added = vsnprintf(line + length, TIMERS_LINE_ROOM - length, format, values);
    va_end(values);
    return length + (size_t)added;
}

static size_t write_finish(const struct last *last, char *line, size_t length) {
    static const char *const words[] = {"done ", "failed ", "again due ", "dropped", "ended"};
    length = add(line, length, "finish %" PRIu32 " task %" PRIu64 " run %" PRIu64 " ", last->worker, last->number, last->run);
    length = add(line, length, "%s", words[last->kind]);
    if (last->kind < TIMERS_OUTCOME_DROPPED) length = add(line, length, "%" PRIu64, last->value);
    return add(line, length, "\n");
}

static size_t write_start(const struct last *last, char *line, size_t length) {
    length = add(line, length, "start %" PRIu32 " task %" PRIu64 " ", last->worker, last->number);
    return add(line, length, "run %" PRIu64 " due %" PRIu64 "\n", last->run, last->value);
}

static size_t write_ask(const struct timers *t, char *line, size_t length) {
    const struct last *last = &t->last;
    bool terminated = t->shut && last->run == 0 && last->value == 0;
    length = add(line, length, "ask queue %" PRIu64 " running %" PRIu64 " ", last->run, last->value);
    return add(line, length, "shutdown %s terminated %s\n", t->shut ? "yes" : "no", terminated ? "yes" : "no");
}

static size_t write_answer(const struct timers *t, char *line) {
    static const char *const kinds[] = {"schedule", "rate", "fixed"};
    static const char *const effects[] = {"none", "no", "yes"};
    static const char *const policies[] = {"continue", "execute", "remove"};
    const struct last *last = &t->last;
    size_t length = add(line, 0, "%" PRIu64 " ", t->now);
    switch (last->answer) {
    case SUBMITTED: return add(line, length, "submit %" PRIu64 " %s due %" PRIu64 "\n", last->number, kinds[last->kind], last->value);
    case REJECTED: return add(line, length, "refuse %" PRIu64 " rejected\n", last->number);
    case OUTSIDE: return add(line, length, "outside %" PRIu64 " %s\n", last->number, effects[last->kind]);
    case PURGED: return add(line, length, "purge\n");
    case POLICY: return add(line, length, "policy %s %s\n", policies[last->kind], last->value ? "true" : "false");
    case SHUTDOWN: return add(line, length, "shutdown\n");
    case SHUTDOWN_AGAIN: return add(line, length, "shutdown again\n");
    case SHUTDOWN_NOW: return add(line, length, "shutdown now\n");
    case ASKED: return write_ask(t, line, length);
    case CLOCK: return add(line, length, "clock\n");
    case STARTED: return write_start(last, line, length);
    case IDLE: return add(line, length, "start %" PRIu32 " idle\n", last->worker);
    case FINISHED: return write_finish(last, line, length);
    case NOTHING: break;
    }
    return 0;
}

/* Writes the line at a place, which there is, with its newline, and answers its length. */
static size_t write_line(const struct timers *t, size_t place, char *line) {
    bool has_clock = t->last.answer == STARTED || t->last.answer == IDLE || t->last.answer == FINISHED;
    if (has_clock && place == 0) return add(line, 0, "%" PRIu64 " clock\n", t->now);
    if (place == 0 || has_clock) return write_answer(t, line);
    return add(line, 0, "%" PRIu64 " end %" PRIu64 "\n", t->now, t->ended[place - 1].task.number);
}

static bool are_spelled(const struct timers *t) {
    if (t->last.number > UINT32_MAX) return false;
    return t->ended_count == 0 || t->ended[t->ended_count - 1].task.number <= UINT32_MAX;
}

timers_status timers_ref_text(timers_slot *slot, size_t from, uint8_t *out, size_t room, timers_copied *copied) {
    struct timers *t = timers_in(slot);
    char line[TIMERS_LINE_ROOM];
    copied->lines = 0;
    copied->bytes = 0;
    if (t == NULL) return TIMERS_NO_TIMERS;
    if (!are_spelled(t)) return TIMERS_NUMBER;
    size_t lines = lines_of(t);
    for (size_t place = from; place < lines && room - copied->bytes >= TIMERS_LINE_ROOM; place++) {
        size_t length = write_line(t, place, line);
        memcpy(out + copied->bytes, line, length);
        copied->bytes += length;
        copied->lines++;
    }
    return TIMERS_DONE;
}
