/* Runs a plan over event lines, and writes its trace: drive PLAN WORKERS < EVENTS. The status is 2 where the words are not these, and 1
 * at any other fault, as with `sched run`. */
#include "sched.h"

#include <inttypes.h>
#include <stdio.h>
#include <string.h>

enum { MOST_PLAN = 1048576, TEXT = 4096, EVENTS = 1000000 };

/* Takes a word from the front of a text; false where another stands there. */
static bool take_word(const char **text, const char *word) {
    size_t length = strlen(word);
    if (strncmp(*text, word, length) != 0) return false;
    *text += length;
    return true;
}

/* Takes a decimal of at most `most`, with no sign and no leading zero, from the front of a text; false where none stands there. */
static bool take_number(const char **text, uint64_t most, uint64_t *number) {
    const char *at = *text;
    bool zero = *at == '0';
    for (*number = 0; *at >= '0' && *at <= '9'; at++) {
        uint64_t digit = (uint64_t)(*at - '0');
        if (*number > (most - digit) / 10) return false;
        *number = *number * 10 + digit;
    }
    if (at == *text || (zero && at != *text + 1)) return false;
    *text = at;
    return true;
}

/* Hands an event line to the executor; false where the line is none. */
static bool take_event(sched_slot *slot, const char *line, sched_status *status) {
    uint64_t worker, number;
    if (take_word(&line, "clock ")) {
        if (!take_number(&line, UINT64_MAX, &number) || strcmp(line, "\n") != 0) return false;
        *status = sched_clock(slot, number);
    } else if (take_word(&line, "start ")) {
        if (!take_number(&line, UINT8_MAX, &worker) || strcmp(line, "\n") != 0) return false;
        *status = sched_start(slot, (uint32_t)worker);
    } else if (take_word(&line, "cancel ")) {
        if (!take_number(&line, UINT32_MAX, &number) || strcmp(line, "\n") != 0) return false;
        *status = sched_cancel(slot, (uint32_t)number);
    } else {
        if (!take_word(&line, "finish ") || !take_number(&line, UINT8_MAX, &worker)) return false;
        bool done = take_word(&line, " ok ");
        if (!done && !take_word(&line, " fail ")) return false;
        if (!take_number(&line, done ? UINT64_MAX : UINT32_MAX, &number) || strcmp(line, "\n") != 0) return false;
        *status = done ? sched_finish(slot, (uint32_t)worker, number) : sched_fail(slot, (uint32_t)worker, (uint32_t)number);
    }
    return true;
}

/* Writes the lines that answer the last event. */
static void write_lines(sched_slot *slot) {
    uint8_t text[TEXT];
    sched_copied copied = {0, 0};
    size_t next = 0;
    while (sched_text(slot, next, text, sizeof text, &copied) == SCHED_DONE && copied.lines > 0) {
        fwrite(text, 1, copied.bytes, stdout);
        next += copied.lines;
    }
}

/* Takes all event lines of the standard input, and writes their trace. */
static int run(sched_slot *slot) {
    char line[128];
    for (uint32_t number = 1; fgets(line, sizeof line, stdin); number++) {
        sched_status status = SCHED_DONE;
        if (!take_event(slot, line, &status)) {
            fprintf(stderr, "drive: event line %" PRIu32 "\n", number);
            return 1;
        }
        if (status != SCHED_DONE) {
            fprintf(stderr, "drive: %s\n", sched_status_text(status));
            return 1;
        }
        write_lines(slot);
    }
    bool good = !ferror(stdin) && fflush(stdout) == 0 && !ferror(stdout);
    if (!good) fprintf(stderr, "drive: the input or the output failed\n");
    return good ? 0 : 1;
}

int main(int count, char **words) {
    static uint8_t plan[MOST_PLAN + 1];
    const char *rest = count == 3 ? words[2] : "";
    uint64_t workers;
    if (!take_number(&rest, UINT32_MAX, &workers) || *rest != '\0') {
        fprintf(stderr, "drive PLAN WORKERS < EVENTS\n");
        return 2;
    }
    FILE *file = fopen(words[1], "rb");
    if (!file) {
        perror(words[1]);
        return 1;
    }
    size_t length = fread(plan, 1, sizeof plan, file);
    bool good = !ferror(file);
    fclose(file);
    if (!good) {
        fprintf(stderr, "drive: %s cannot be read\n", words[1]);
        return 1;
    }
    sched_slot slot = SCHED_EMPTY;
    sched_fault fault;
    sched_status status = sched_new(&slot, plan, length, (uint32_t)workers, EVENTS, &fault);
    if (status == SCHED_NO_PLAN) {
        fprintf(stderr, "drive: plan: fault %" PRIu32 " block %" PRIu32 " call %" PRIu32 "\n", fault.kind, fault.block, fault.call);
        return 1;
    }
    if (status != SCHED_DONE) {
        fprintf(stderr, "drive: %s\n", sched_status_text(status));
        return status == SCHED_WORKERS ? 2 : 1;
    }
    int end = run(&slot);
    sched_free(&slot);
    return end;
}
