/* Tells ThreadSanitizer what the locks of Rust's standard library order.
 *
 * A toolchain's standard library is not built for the sanitizer. What a lock does where no thread waits is compiled into the
 * program, and is seen; what it does where one waits is not. These functions stand around the three in which a thread waits, by
 * --wrap of the linker: LOCK, which takes a lock that another thread holds, and WAIT and WAIT_TIMEOUT, which give it back and take
 * it again. bindings/rust/sanitize finds their names in the toolchain.
 */
#include <stdbool.h>
#include <stdint.h>

#define JOINED(front, name) front##name
#define REAL(name) JOINED(__real_, name)
#define WRAP(name) JOINED(__wrap_, name)

void __tsan_acquire(void *place);
void __tsan_release(void *place);

void REAL(LOCK)(void *lock);
void REAL(WAIT)(void *condition, void *lock);
bool REAL(WAIT_TIMEOUT)(void *condition, void *lock, uint64_t seconds, uint32_t nanoseconds);

void WRAP(LOCK)(void *lock) {
    REAL(LOCK)(lock);
    __tsan_acquire(lock);
}

void WRAP(WAIT)(void *condition, void *lock) {
    __tsan_release(lock);
    REAL(WAIT)(condition, lock);
    __tsan_acquire(lock);
}

bool WRAP(WAIT_TIMEOUT)(void *condition, void *lock, uint64_t seconds, uint32_t nanoseconds) {
    __tsan_release(lock);
    bool in_time = REAL(WAIT_TIMEOUT)(condition, lock, seconds, nanoseconds);
    __tsan_acquire(lock);
    return in_time;
}
