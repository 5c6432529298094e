/* A timeout wheel: each connection has at most one timeout, and a reply takes it back. */
#include "delay_queue.h"
#include <inttypes.h>
#include <stdio.h>

enum { CONNECTIONS = 8, MILLISECOND = 1000000 };

int main(void) {
    dq_slot wheel = DQ_EMPTY;
    dq_entry timeout;
    dq_status status = dq_new(&wheel, CONNECTIONS);
    for (uint32_t connection = 0; status == DQ_DONE && connection < CONNECTIONS; connection++)
        status = dq_try_insert(&wheel, (uint64_t)(CONNECTIONS - connection) * MILLISECOND, connection);
    if (status == DQ_DONE) status = dq_remove(&wheel, 5); /* a reply came */
    for (uint64_t now = 0; status == DQ_DONE && now <= CONNECTIONS; now += 2)
        while (dq_poll(&wheel, now * MILLISECOND, &timeout) == DQ_DONE)
            printf("%" PRIu64 " ms: connection %" PRIu32 " timed out\n", now, timeout.task);
    if (status != DQ_DONE) fprintf(stderr, "timeout wheel: %s\n", dq_status_text(status));
    dq_free(&wheel);
    return status == DQ_DONE ? 0 : 1;
}
