// The header of the executor in C++.
#include "sched.h"

int main() {
    sched_slot slot = SCHED_EMPTY;
    sched_fault fault = {0, 0, 0};
    sched_state state = {0, 0, 0, 0, 0};
    bool none = sched_new(nullptr, nullptr, 0, 1, 1, &fault) == SCHED_NULL && sched_clock(&slot, 5) == SCHED_NO_EXECUTOR;
    bool wrong = sched_new(&slot, nullptr, 0, 1, 1, &fault) == SCHED_NO_PLAN && fault.kind == SCHED_FAULT_VERSION;
    const char plan[] = "version = 2";
    bool made = sched_new(&slot, reinterpret_cast<const uint8_t *>(plan), sizeof plan - 1, 1, 1, &fault) == SCHED_DONE;
    bool told = sched_clock(&slot, 5) == SCHED_DONE && sched_clock(&slot, 6) == SCHED_FULL;
    bool looked = sched_state_of(&slot, &state) == SCHED_DONE && state.now == 5 && state.lines == 1;
    sched_run run = {0, 0, 0, 0};
    bool started = sched_started(&slot, &run) == SCHED_NOT_STARTED && sched_start(&slot, 256) == SCHED_NO_WORKER;
    return started && none && wrong && made && told && looked && sched_free(&slot) == SCHED_DONE ? 0 : 1;
}
