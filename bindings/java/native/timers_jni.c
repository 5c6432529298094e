/* The crossings from Java into include/timers.h, for the class Timers.
 *
 * Numbers alone cross, and one address: that of the room, a direct buffer of 64-bit words that Java keeps as long as the timers. No call
 * looks at an object of Java's, makes one, calls back, or throws. Java holds the lock of the pool around each call, and its object Timers
 * is the receiver of each, so that neither the timers nor the room go while a call runs.
 *
 * The room: words 0 to 7 are answers, and from word NOTES on stand notes, of NOTE words each: submissions and cancels that Java has made
 * and the timers are still to be told, in their order. A call that takes notes tells them first.
 *
 * Java names a task by its place in a table of Java's, which is the number that the timers give back with each run. `slots` has the
 * slot of the task at each place.
 */
#include <cpuid.h>
#include <jni.h>
#include <stdlib.h>

#include "timers.h"

#define JAVA(type, name) JNIEXPORT type JNICALL Java_sched_timers_Timers_##name

enum { NOTES = 8, NOTE = 4 };

/* What a note is: the kind stands in the low byte of its first word, and the place above it. */
enum { ONCE = 0, RATE = 1, FIXED = 2, CANCEL = 3 };

/* What Java asks for beside the policies of the header. */
enum { SHUTDOWN = 3, SHUTDOWN_NOW = 4 };

/* How a run ended. */
enum { NONE = 0, VALUE = 1, FAILURE = 2 };

/* What `cycle` answers in place of a place: nothing is due, or, below it, a status that no pool gets. */
enum { IDLE = -1, FAULT = -2 };

struct pool {
    timers_slot timers;
    uint32_t *slots; /* by places */
    uint32_t places;
};

static struct pool *pool_at(jlong at) { return (struct pool *)(uintptr_t)at; }
static jlong *words_at(jlong room) { return (jlong *)(uintptr_t)room; }

/* The least moment at which a task that waits is due; the greatest number where none waits. */
static jlong first_due(struct pool *pool) {
    uint64_t due;
    if (timers_ref_next_due(&pool->timers, &due) != TIMERS_DONE || due > INT64_MAX) return INT64_MAX;
    return (jlong)due;
}

/* Submits what a note says. A task that is rejected has a number and no slot. */
static timers_status submit(struct pool *pool, const jlong *note, uint32_t place) {
    timers_ref task = {0, 0};
    uint64_t now = (uint64_t)note[1], delay = (uint64_t)note[2], period = (uint64_t)note[3];
    timers_status status;
    switch (note[0] & 0xff) {
        case RATE: status = timers_ref_rate(&pool->timers, now, delay, period, place, &task); break;
        case FIXED: status = timers_ref_fixed(&pool->timers, now, delay, period, place, &task); break;
        default: status = timers_ref_schedule(&pool->timers, now, delay, place, &task);
    }
    if (status == TIMERS_DONE) pool->slots[place] = task.slot;
    return status == TIMERS_SHUT ? (timers_status)TIMERS_DONE : status;
}

/* Tells the timers all notes. The answer is the first status that is not TIMERS_DONE: the notes behind it are lost. */
static timers_status apply_notes(struct pool *pool, const jlong *words, jint notes) {
    const jlong *note = words + NOTES;
    timers_status status = TIMERS_DONE;
    for (jint i = 0; i < notes && status == TIMERS_DONE; i++, note += NOTE) {
        uint32_t place = (uint32_t)(note[0] >> 8), effect;
        if ((note[0] & 0xff) == CANCEL) {
            timers_ref task = {(uint64_t)note[1], pool->slots[place]};
            status = timers_ref_cancel(&pool->timers, &task, &effect);
        } else {
            status = submit(pool, note, place);
        }
    }
    return status;
}

/* Whether the processor is one that the proved archive runs on: level 2 of x86-64, which is SSE 3, SSSE 3, SSE 4.1 and 4.2, POPCNT,
 * CMPXCHG16B, and LAHF. */
JAVA(jboolean, fits)(JNIEnv *env, jclass java) {
    const unsigned int wanted = bit_SSE3 | bit_SSSE3 | bit_SSE4_1 | bit_SSE4_2 | bit_POPCNT | bit_CMPXCHG16B;
    unsigned int a, b, c, d;
    (void)env; (void)java;
    if (!__get_cpuid(1, &a, &b, &c, &d) || (c & wanted) != wanted) return JNI_FALSE;
    return __get_cpuid(0x80000001, &a, &b, &c, &d) && (c & bit_LAHF_LM) != 0;
}

/* The address of a direct buffer. */
JAVA(jlong, address)(JNIEnv *env, jclass java, jobject buffer) {
    (void)java;
    return (jlong)(uintptr_t)(*env)->GetDirectBufferAddress(env, buffer);
}

/* Makes timers. 0: there is no memory; below FAULT: a status that no pool gets. */
JAVA(jlong, make)(JNIEnv *env, jclass java, jint workers) {
    (void)env; (void)java;
    struct pool *pool = calloc(1, sizeof *pool);
    timers_status status = pool == NULL ? (timers_status)TIMERS_NO_MEMORY : timers_ref_new(&pool->timers, (uint32_t)workers);
    if (status == TIMERS_DONE) return (jlong)(uintptr_t)pool;
    free(pool);
    return status == TIMERS_NO_MEMORY ? 0 : FAULT - (jlong)status;
}

/* Frees them. */
JAVA(void, release)(JNIEnv *env, jclass java, jlong at) {
    struct pool *pool = pool_at(at);
    (void)env; (void)java;
    timers_ref_free(&pool->timers);
    free(pool->slots);
    free(pool);
}

/* Makes room for so many tasks alive. Nothing changes where there is no memory. */
JAVA(jboolean, reserve)(JNIEnv *env, jobject java, jlong at, jint tasks) {
    struct pool *pool = pool_at(at);
    uint32_t places = (uint32_t)tasks;
    (void)env; (void)java;
    if (places > pool->places) {
        uint32_t *slots = realloc(pool->slots, places * sizeof *slots);
        if (slots == NULL) return JNI_FALSE;
        pool->slots = slots;
        pool->places = places;
    }
    return timers_ref_reserve(&pool->timers, places) == TIMERS_DONE;
}

/* Tells the timers the notes. */
JAVA(jint, apply)(JNIEnv *env, jobject java, jlong at, jlong room, jint notes) {
    (void)env; (void)java;
    return (jint)apply_notes(pool_at(at), words_at(room), notes);
}

/* The end of a worker's run, and a status that no pool gets. Words 1 and 2: what became of the task, and when it is due next. */
static timers_status end_run(struct pool *pool, jlong *words, jlong now, jint worker, jint ending) {
    timers_end end = {{0, 0}, 0, 0, 0, 0};
    timers_status status = ending == VALUE ? timers_ref_finish(&pool->timers, (uint64_t)now, (uint32_t)worker, 0, &end)
                                           : timers_ref_fail(&pool->timers, (uint64_t)now, (uint32_t)worker, 1, &end);
    words[1] = (jlong)end.outcome;
    words[2] = (jlong)end.value;
    return status;
}

/* A round of a worker: the notes, the end of its run where it has one, and the beginning of the next where it wants one. The answer is
 * the place of the task that it is to run. Word 0: the first due moment. */
JAVA(jint, cycle)(JNIEnv *env, jobject java, jlong at, jlong room, jint notes, jlong now, jint worker, jint ending, jboolean wants) {
    struct pool *pool = pool_at(at);
    jlong *words = words_at(room);
    timers_status status = apply_notes(pool, words, notes);
    timers_run run;
    jint place = IDLE;
    (void)env; (void)java;
    if (status == TIMERS_DONE && ending != NONE) status = end_run(pool, words, now, worker, ending);
    if (status != TIMERS_DONE) return FAULT - (jint)status;
    if (wants) {
        status = timers_ref_poll(&pool->timers, (uint64_t)now, (uint32_t)worker, &run);
        if (status == TIMERS_DONE) place = (jint)run.data;
        else if (status != TIMERS_IDLE) return FAULT - (jint)status;
    }
    words[0] = first_due(pool);
    return place;
}

/* The notes, and then a policy or a shutdown. The answer is how many tasks it ended. Word 0: the first due moment. */
JAVA(jint, rule)(JNIEnv *env, jobject java, jlong at, jlong room, jint notes, jlong now, jint which, jboolean value) {
    struct pool *pool = pool_at(at);
    jlong *words = words_at(room);
    timers_status status = apply_notes(pool, words, notes);
    timers_state state;
    uint32_t first;
    (void)env; (void)java;
    if (status != TIMERS_DONE) return FAULT - (jint)status;
    switch (which) {
        case SHUTDOWN: status = timers_ref_shutdown(&pool->timers, (uint64_t)now, &first); break;
        case SHUTDOWN_NOW: status = timers_ref_shutdown_now(&pool->timers, (uint64_t)now); break;
        default: status = timers_ref_set_policy(&pool->timers, (uint64_t)now, (uint32_t)which, value != JNI_FALSE);
    }
    if (status != TIMERS_DONE) return FAULT - (jint)status;
    words[0] = first_due(pool);
    timers_ref_state_of(&pool->timers, &state);
    return (jint)state.ended;
}

/* The places of the tasks that the last call ended, from one of them on, in the words from NOTES on. The answer is how many, at most
 * `most`. */
JAVA(jint, ended)(JNIEnv *env, jobject java, jlong at, jlong room, jint from, jint most) {
    struct pool *pool = pool_at(at);
    jlong *places = words_at(room) + NOTES;
    timers_gone gone;
    jint n = 0;
    (void)env; (void)java;
    for (; n < most && timers_ref_ended(&pool->timers, (size_t)from + (size_t)n, &gone) == TIMERS_DONE; n++) places[n] = (jlong)gone.data;
    return n;
}

/* Whether the timers are shut, and no task is alive. */
JAVA(jboolean, terminated)(JNIEnv *env, jobject java, jlong at, jlong room, jint notes) {
    timers_state state;
    (void)env; (void)java;
    if (apply_notes(pool_at(at), words_at(room), notes) != TIMERS_DONE) return JNI_FALSE;
    timers_ref_state_of(&pool_at(at)->timers, &state);
    return state.terminated != 0;
}

/* Asks how many tasks there are, as a call that has a line. */
JAVA(jint, ask)(JNIEnv *env, jobject java, jlong at, jlong now) {
    timers_counts counts;
    (void)env; (void)java;
    return (jint)timers_ref_ask(&pool_at(at)->timers, (uint64_t)now, &counts);
}

/* The text of the lines of the last call, from one on, in the words from NOTES on, of which there are `words`. Word 0: how many lines. The
 * answer is how many bytes; FAULT where a line can not name its task. */
JAVA(jint, text)(JNIEnv *env, jobject java, jlong at, jlong room, jint from, jint words) {
    jlong *out = words_at(room);
    timers_copied copied;
    timers_status status = timers_ref_text(&pool_at(at)->timers, (size_t)from, (uint8_t *)(out + NOTES), 8 * (size_t)words, &copied);
    (void)env; (void)java;
    if (status != TIMERS_DONE) return FAULT;
    out[0] = (jlong)copied.lines;
    return (jint)copied.bytes;
}
