/* Random calls of timers, with all that they answer: timers_random SEED CALLS. One seed makes the same calls over any library that
 * answers alike, so what it writes over the proved one and over tools/timers_speed/peer.c has to be the same. Slots are not written,
 * since each library may choose its own. Moments and delays are small, so that many tasks are due at once. tools/bindings runs it. */
#include "timers.h"

#include <inttypes.h>
#include <stdio.h>
#include <stdlib.h>
#include <string.h>

#define LONGEST (UINT64_C(1) << 62)

/* The timers are made anew after so many calls, or as many submissions as are known here. */
enum { WORKERS = 3, LIFE = 600 };

typedef struct player {
    timers_slot slot;
    uint64_t state;          /* of the random numbers */
    timers_ref tasks[LIFE];  /* by their numbers, what each submission was given */
    size_t known;
} player;

static uint64_t below(player *p, uint64_t limit) {
    p->state = p->state * 6364136223846793005u + 1442695040888963407u;
    return (p->state >> 33) % limit;
}

static timers_state state_of(player *p) {
    timers_state state;
    timers_state_of(&p->slot, &state);
    return state;
}

/* A moment a little before or behind now; once in a while one that is too far. */
static uint64_t moment(player *p) {
    if (below(p, 200) == 0) return LONGEST + 1 + below(p, 2);
    uint64_t later = state_of(p).now + below(p, 12);
    return later < 4 ? later : later - 4;
}

/* A delay or a period, which may be 0, and is seldom too long. */
static uint64_t span(player *p) {
    return below(p, 200) == 0 ? LONGEST + 1 : below(p, 40);
}

/* The ref of a submission, or one with a slot that is not its own, or with a number that was not given out yet. */
static timers_ref any_task(player *p) {
    timers_ref task = {p->known + below(p, 3), (uint32_t)below(p, 1000)};
    if (p->known == 0 || below(p, 50) == 0) return task;
    task = p->tasks[below(p, p->known)];
    if (below(p, 10) == 0) task.slot = (uint32_t)below(p, 100);
    return task;
}

static void submit(player *p) {
    timers_ref task = {9, 9};
    timers_status status;
    uint64_t now = moment(p), first = span(p), more = span(p), data = below(p, 1000000);
    switch (below(p, 4)) {
    case 0: status = timers_schedule(&p->slot, now, first, data, &task); break;
    case 1: status = timers_execute(&p->slot, now, data, &task); break;
    case 2: status = timers_rate(&p->slot, now, first, more, data, &task); break;
    default: status = timers_fixed(&p->slot, now, first, more, data, &task); break;
    }
    if (status == TIMERS_DONE || status == TIMERS_SHUT) p->tasks[p->known++] = task;
    printf("submit %" PRIu32 " %" PRIu64 "\n", status, task.number);
}

/* Cancels, or purges, which is seldom, so that tasks are kept. */
static void cancel(player *p) {
    if (below(p, 20) == 0) {
        printf("purge %" PRIu32 "\n", timers_purge(&p->slot));
        return;
    }
    uint32_t effect = 9;
    timers_status status = timers_cancel(&p->slot, any_task(p), &effect);
    printf("cancel %" PRIu32 " %" PRIu32 "\n", status, effect);
}

static void print_run(const timers_run *run) {
    printf(" task %" PRIu64 " run %" PRIu64 " due %" PRIu64 " data %" PRIu64 " worker %" PRIu32, run->task.number, run->run, run->due,
           run->data, run->worker);
}

static void print_end(const timers_end *end) {
    printf(" task %" PRIu64 " run %" PRIu64 " data %" PRIu64 " outcome %" PRIu32 " %" PRIu64, end->task.number, end->run, end->data,
           end->outcome, end->value);
}

static void poll(player *p) {
    timers_run runs[4];
    size_t begun = 9, n = below(p, 5);
    memset(runs, 9, sizeof runs);
    for (size_t place = 0; place < 4; place++) runs[place].worker = (uint32_t)below(p, WORKERS + below(p, 2));
    bool one = below(p, 2) == 0;
    uint64_t now = moment(p);
    timers_status status =
        one ? timers_poll(&p->slot, now, runs[0].worker, &runs[0]) : timers_poll_many(&p->slot, now, runs, n, &begun);
    printf("poll %" PRIu32 " %zu", status, begun);
    for (size_t place = 0; place < (one ? 1 : begun); place++) print_run(&runs[place]);
    printf("\n");
}

static void finish(player *p) {
    timers_ending endings[4];
    timers_end ends[4];
    size_t ended = 9, n = below(p, 5);
    memset(ends, 9, sizeof ends);
    for (size_t place = 0; place < 4; place++) {
        endings[place].worker = (uint32_t)below(p, WORKERS + below(p, 2));
        endings[place].value = below(p, 100) == 0 ? UINT64_MAX : below(p, 1000);
        endings[place].failed = below(p, 8) == 0;
    }
    uint64_t now = moment(p), value = endings[0].value, way = below(p, 3);
    uint32_t worker = endings[0].worker;
    timers_status status;
    if (way == 0) status = timers_finish_many(&p->slot, now, endings, ends, n, &ended);
    else if (way == 1 && endings[0].failed) status = timers_fail(&p->slot, now, worker, (uint32_t)value, &ends[0]);
    else status = timers_finish(&p->slot, now, worker, value, &ends[0]);
    printf("finish %" PRIu32 " %zu", status, ended);
    for (size_t place = 0; place < (way == 0 ? ended : 1); place++) print_end(&ends[place]);
    printf("\n");
}

static void shut(player *p) {
    uint32_t first = 9, policy = (uint32_t)below(p, 4);
    bool value = below(p, 2) == 0;
    timers_status status;
    uint64_t now = moment(p), way = below(p, 120);
    if (way == 0) status = timers_shutdown(&p->slot, now, &first);
    else if (way == 1) status = timers_shutdown_now(&p->slot, now);
    else status = timers_set_policy(&p->slot, now, policy, value);
    printf("shut %" PRIu32 " %" PRIu32 "\n", status, first);
}

static void look(player *p) {
    timers_task task = {9, 9, 9, 9};
    timers_counts counts = {9, 9, 9, 9};
    uint64_t due = 9;
    timers_status status = timers_task_of(&p->slot, any_task(p), &task);
    printf("task %" PRIu32 " %" PRIu64 " %" PRIu64 " %" PRIu32 " %" PRIu32 "\n", status, task.run, task.due, task.phase, task.cancelled);
    status = timers_next_due(&p->slot, &due);
    printf("next %" PRIu32 " %" PRIu64 "\n", status, due);
    status = timers_head_due(&p->slot, &due);
    printf("head %" PRIu32 " %" PRIu64 "\n", status, due);
    if (below(p, 4) > 0) return;
    status = timers_ask(&p->slot, moment(p), &counts);
    printf("ask %" PRIu32 " %zu %zu %" PRIu32 " %" PRIu32 "\n", status, counts.queue, counts.running, counts.shut, counts.terminated);
}

/* Writes what can be told after a call: the state, what was ended, and the lines, as they come with some room. */
static void tell(player *p) {
    timers_state state = state_of(p);
    timers_gone gone;
    uint8_t out[4 * TIMERS_LINE_ROOM];
    timers_copied copied = {1, 0};
    printf("now %" PRIu64 " numbers %" PRIu64 " alive %zu ended %zu ", state.now, state.numbers, state.alive, state.ended);
    printf("lines %zu policies %" PRIu32 " shut %" PRIu32 " terminated %" PRIu32 "\n", state.lines, state.policies, state.shut, state.terminated);
    for (size_t place = 0; timers_ended(&p->slot, place, &gone) == TIMERS_DONE; place++)
        printf("%" PRIu64 " %" PRIu64 "\n", gone.task.number, gone.data);
    size_t room = TIMERS_LINE_ROOM + below(p, sizeof out - TIMERS_LINE_ROOM + 1);
    for (size_t from = 0; copied.lines > 0; from += copied.lines) {
        if (timers_text(&p->slot, from, out, room, &copied) != TIMERS_DONE) return;
        fwrite(out, 1, copied.bytes, stdout);
    }
}

int main(int count, char **words) {
    static player p;
    static void (*const calls[])(player *) = {submit, submit, submit, cancel, poll, poll, finish, finish, shut, look};
    if (count != 3) return 2;
    p.state = strtoull(words[1], NULL, 10);
    uint64_t made = strtoull(words[2], NULL, 10);
    for (uint64_t call = 0; call < made; call++) {
        if (call % LIFE == 0) {
            timers_free(&p.slot);
            p.known = 0;
            if (timers_new(&p.slot, WORKERS) != TIMERS_DONE) return 1;
        }
        calls[below(&p, sizeof calls / sizeof *calls)](&p);
        tell(&p);
    }
    return timers_free(&p.slot) == TIMERS_DONE ? 0 : 1;
}
