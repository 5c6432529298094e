/* How long the calls of timers take, in nanoseconds: timers run|cancel TASKS ROUNDS.
 *
 * TASKS tasks are alive all the time, each due up to 2^31 nanoseconds after its submission. A round of `run` goes to the moment at
 * which the next one is due, polls for it, finishes it, and submits another one. A round of `cancel` cancels the one that was
 * submitted first, which stands anywhere in the queue, and submits another one. One that is cancelled leaves the queue at once.
 * The first tasks are not in the time. The sum tells in which order they ran. The same source is built over the proved library and
 * over peer.c. */
#define _POSIX_C_SOURCE 199309L
#include "timers.h"
#include <inttypes.h>
#include <stdio.h>
#include <stdlib.h>
#include <string.h>
#include <time.h>

static void demand(bool holds, const char *what) {
    if (holds) return;
    fprintf(stderr, "timers: %s\n", what);
    exit(1);
}

static double now_ns(void) {
    struct timespec t;
    clock_gettime(CLOCK_MONOTONIC, &t);
    return (double)t.tv_sec * 1e9 + (double)t.tv_nsec;
}

static uint64_t mixed(void) {
    static uint64_t state = 1;
    state = state * 6364136223846793005u + 1442695040888963407u;
    return state >> 33;
}

static uint64_t run_rounds(timers_slot *timers, uint64_t rounds) {
    uint64_t sum = 0, due;
    timers_run run;
    timers_end end;
    timers_ref task;
    for (uint64_t round = 0; round < rounds; round++) {
        demand(timers_next_due(timers, &due) == TIMERS_DONE, "no task waits");
        demand(timers_poll(timers, due, 0, &run) == TIMERS_DONE, "nothing is due");
        demand(timers_finish(timers, due, 0, 0, &end) == TIMERS_DONE, "nothing was run");
        demand(timers_schedule(timers, due, 1 + mixed(), run.data, &task) == TIMERS_DONE, "out of memory");
        sum = sum * 31 + run.data;
    }
    return sum;
}

static uint64_t cancel_rounds(timers_slot *timers, timers_ref *tasks, uint64_t count, uint64_t rounds) {
    uint64_t sum = 0, first = 0;
    uint32_t effect;
    for (uint64_t round = 0; round < rounds; round++) {
        demand(timers_cancel(timers, tasks[first], &effect) == TIMERS_DONE, "there is no task");
        demand(timers_schedule(timers, 0, 1 + mixed(), first, &tasks[first]) == TIMERS_DONE, "out of memory");
        sum += effect == TIMERS_CANCEL_YES;
        first = first + 1 == count ? 0 : first + 1;
    }
    return sum;
}

int main(int count, char **words) {
    demand(count == 4, "usage: timers run|cancel TASKS ROUNDS");
    uint64_t alive = strtoull(words[2], NULL, 10), rounds = strtoull(words[3], NULL, 10);
    bool runs = strcmp(words[1], "run") == 0;
    timers_slot timers = TIMERS_EMPTY;
    timers_ref *tasks = malloc(alive * sizeof *tasks);
    demand(tasks != NULL && timers_new(&timers, 1) == TIMERS_DONE, "out of memory");
    demand(timers_set_policy(&timers, 0, TIMERS_POLICY_REMOVE, true) == TIMERS_DONE, "no policy");
    for (uint64_t task = 0; task < alive; task++)
        demand(timers_schedule(&timers, 0, 1 + mixed(), task, &tasks[task]) == TIMERS_DONE, "out of memory");
    double start = now_ns();
    uint64_t sum = runs ? run_rounds(&timers, rounds) : cancel_rounds(&timers, tasks, alive, rounds);
    printf("%.1f ns, sum %" PRIu64 "\n", (now_ns() - start) / (double)rounds, sum);
    free(tasks);
    return timers_free(&timers) == TIMERS_DONE ? 0 : 1;
}
