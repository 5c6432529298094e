/* How long the calls of a delay queue take, in nanoseconds each: the proved one, or an indexed heap by hand, binary unless WAYS
 * says how many entries stand below each.
 *
 *     queue proved|checked|heap ENTRIES
 *
 * 20 rounds: ENTRIES entries are added, in mixed order and with mixed moments; every second task is taken out, in mixed
 * order; the others are polled. The least time of each part is printed, divided by its calls. The sum of what was polled is
 * the same for all. `proved` adds by dq_insert_unchecked, `checked` by dq_try_insert. */
#define _POSIX_C_SOURCE 199309L
#include "delay_queue.h"
#include <stdio.h>
#include <stdlib.h>
#include <string.h>
#include <time.h>

#ifndef WAYS
#define WAYS 2
#endif

typedef struct { uint64_t due; uint32_t task; } entry;

/* The heap by hand: entries in the order of a heap, and the place of each task's entry. */
typedef struct { entry *entries; uint32_t *place; uint32_t count; } heap;

enum { ABSENT = UINT32_MAX };

static bool before(entry a, entry b) { return a.due < b.due || (a.due == b.due && a.task < b.task); }

static void put(heap *h, uint32_t at, entry e) { h->entries[at] = e; h->place[e.task] = at; }

static void rise(heap *h, uint32_t at, entry e) {
    while (at > 0) {
        uint32_t up = (at - 1) / WAYS;
        if (!before(e, h->entries[up])) break;
        put(h, at, h->entries[up]);
        at = up;
    }
    put(h, at, e);
}

/* The place of the least of the entries right below one, of which this is the first. */
static uint32_t least_from(const heap *h, uint32_t down) {
#if WAYS == 2
    return down + 1 < h->count && before(h->entries[down + 1], h->entries[down]) ? down + 1 : down;
#else
    uint32_t end = h->count - down < WAYS ? h->count : down + WAYS, least = down;
    for (uint32_t other = down + 1; other < end; other++) {
        if (before(h->entries[other], h->entries[least])) least = other;
    }
    return least;
#endif
}

static void sink(heap *h, uint32_t at, entry e) {
    for (;;) {
        uint32_t down = WAYS * at + 1;
        if (down >= h->count) break;
        down = least_from(h, down);
        if (!before(h->entries[down], e)) break;
        put(h, at, h->entries[down]);
        at = down;
    }
    put(h, at, e);
}

static bool heap_insert(heap *h, uint64_t due, uint32_t task) {
    if (h->place[task] != ABSENT) return false;
    rise(h, h->count++, (entry){due, task});
    return true;
}

static bool heap_remove(heap *h, uint32_t task) {
    uint32_t at = h->place[task];
    if (at == ABSENT) return false;
    h->place[task] = ABSENT;
    entry last = h->entries[--h->count];
    if (at == h->count) return true;
    if (at > 0 && before(last, h->entries[(at - 1) / WAYS])) rise(h, at, last);
    else sink(h, at, last);
    return true;
}

static bool heap_poll(heap *h, uint64_t now, entry *out) {
    if (h->count == 0 || h->entries[0].due > now) return false;
    *out = h->entries[0];
    h->place[out->task] = ABSENT;
    entry last = h->entries[--h->count];
    if (h->count > 0) sink(h, 0, last);
    return true;
}

static double now_ns(void) {
    struct timespec t;
    clock_gettime(CLOCK_MONOTONIC, &t);
    return (double)t.tv_sec * 1e9 + (double)t.tv_nsec;
}

static uint64_t mixed(uint64_t *state) {
    *state = *state * 6364136223846793005u + 1442695040888963407u;
    return *state >> 33;
}

static void fail(const char *what) { fprintf(stderr, "queue: %s\n", what); exit(1); }

int main(int argc, char **argv) {
    if (argc != 3) fail("usage: queue proved|checked|heap ENTRIES");
    bool by_hand = strcmp(argv[1], "heap") == 0, checked = strcmp(argv[1], "checked") == 0;
    uint32_t count = (uint32_t)strtoul(argv[2], NULL, 10);
    uint32_t *order = malloc(count * sizeof *order);
    uint64_t *dues = malloc(count * sizeof *dues);
    if (order == NULL || dues == NULL) fail("out of memory");
    uint64_t state = 1;
    for (uint32_t i = 0; i < count; i++) order[i] = i;
    for (uint32_t i = count; i > 1; i--) {
        uint32_t j = (uint32_t)(mixed(&state) % i), kept = order[i - 1];
        order[i - 1] = order[j];
        order[j] = kept;
    }
    for (uint32_t i = 0; i < count; i++) dues[i] = mixed(&state);
    heap h = {malloc(count * sizeof(entry)), malloc(count * sizeof(uint32_t)), 0};
    dq_slot slot = DQ_EMPTY;
    if (h.entries == NULL || h.place == NULL || dq_new(&slot, count) != DQ_DONE) fail("out of memory");
    memset(h.place, 0xff, count * sizeof(uint32_t));
    double best[3] = {1e300, 1e300, 1e300};
    uint64_t sum = 0;
    for (int round = 0; round < 20; round++) {
        double t0 = now_ns();
        if (by_hand) for (uint32_t i = 0; i < count; i++) heap_insert(&h, dues[order[i]], order[i]);
        else if (checked) for (uint32_t i = 0; i < count; i++) dq_try_insert(&slot, dues[order[i]], order[i]);
        else for (uint32_t i = 0; i < count; i++) dq_insert_unchecked(&slot, dues[order[i]], order[i]);
        double t1 = now_ns();
        if (by_hand) { for (uint32_t i = 0; i < count; i++) if (order[i] % 2 == 0) heap_remove(&h, order[i]); }
        else for (uint32_t i = 0; i < count; i++) if (order[i] % 2 == 0) dq_remove(&slot, order[i]);
        double t2 = now_ns();
        uint32_t polled = 0;
        sum = 0;
        if (by_hand) { entry e; while (heap_poll(&h, UINT64_MAX, &e)) sum = sum * 31 + e.task, polled++; }
        else { dq_entry e; while (dq_poll(&slot, UINT64_MAX, &e) == DQ_DONE) sum = sum * 31 + e.task, polled++; }
        double t3 = now_ns();
        if (polled != count / 2) fail("another number of entries came out");
        double parts[3] = {(t1 - t0) / count, (t2 - t1) / (count - polled), (t3 - t2) / polled};
        for (int i = 0; i < 3; i++) if (parts[i] < best[i]) best[i] = parts[i];
    }
    printf("%s %u insert %.1f remove %.1f poll %.1f sum %llu\n", argv[1], count, best[0], best[1], best[2], (unsigned long long)sum);
    dq_free(&slot);
    free(order); free(dues); free(h.entries); free(h.place);
    return 0;
}
