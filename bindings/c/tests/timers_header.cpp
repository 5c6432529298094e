// The header of the timers in C++.
#include "timers.h"

int main() {
    timers_slot slot = TIMERS_EMPTY;
    timers_ref task = {0, 0};
    timers_run run = {{0, 0}, 0, 0, 0, 0};
    timers_end end = {{0, 0}, 0, 0, 0, 0};
    timers_state state = {0, 0, 0, 0, 0, 0, 0, 0};
    timers_copied copied = {0, 0};
    size_t many = 7;
    bool none = timers_new(nullptr, 1) == TIMERS_NULL && timers_execute(&slot, 0, 1, &task) == TIMERS_NO_TIMERS;
    bool wrong = timers_new(&slot, 0) == TIMERS_WORKERS && timers_new(&slot, 65) == TIMERS_WORKERS;
    bool made = timers_new(&slot, 1) == TIMERS_DONE && timers_schedule(&slot, 0, 5, 70, &task) == TIMERS_DONE;
    bool polled = timers_poll(&slot, 4, 0, &run) == TIMERS_IDLE && timers_poll(&slot, 5, 0, &run) == TIMERS_DONE && run.data == 70;
    bool ended = timers_finish(&slot, 6, 0, 1, &end) == TIMERS_DONE && end.outcome == TIMERS_OUTCOME_DONE;
    bool looked = timers_state_of(&slot, &state) == TIMERS_DONE && state.now == 6 && state.lines == 2;
    bool no_runs = timers_poll_many(&slot, 6, nullptr, 0, &many) == TIMERS_DONE && many == 0;
    bool no_ends = timers_finish_many(&slot, 6, nullptr, nullptr, 0, &many) == TIMERS_DONE && many == 0;
    bool no_text = timers_text(&slot, 0, nullptr, 0, &copied) == TIMERS_DONE && copied.lines == 0;
    bool all = none && wrong && made && polled && ended && looked && no_runs && no_ends && no_text;
    return all && timers_free(&slot) == TIMERS_DONE ? 0 : 1;
}
