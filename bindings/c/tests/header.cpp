// The header in C++.
#include "delay_queue.h"

int main() {
    dq_slot slot = DQ_EMPTY;
    dq_entry entry = {0, 0};
    bool good = dq_new(&slot, 1) == DQ_DONE && dq_try_insert(&slot, 5, 0) == DQ_DONE && dq_poll(&slot, 5, &entry) == DQ_DONE;
    return good && entry.due == 5 && dq_free(&slot) == DQ_DONE ? 0 : 1;
}
