/* Counts the blocks of memory that the library holds, and refuses growths as a test asks: linked with the library in place of malloc,
 * calloc, realloc and free. */
#include <jni.h>
#include <stdatomic.h>
#include <stdbool.h>
#include <stddef.h>

void *__real_malloc(size_t size);
void *__real_calloc(size_t count, size_t size);
void *__real_realloc(void *block, size_t size);
void __real_free(void *block);

static atomic_long in_use;
/* How many growths are allowed; any number where it is negative. */
static atomic_long allowed = -1;

static bool is_refused(void) {
    long left = atomic_load(&allowed);
    while (left > 0 && !atomic_compare_exchange_weak(&allowed, &left, left - 1)) continue;
    return left == 0;
}

static void *counted(void *block) {
    if (block != NULL) atomic_fetch_add(&in_use, 1);
    return block;
}

void *__wrap_malloc(size_t size) { return is_refused() ? NULL : counted(__real_malloc(size)); }
void *__wrap_calloc(size_t count, size_t size) { return is_refused() ? NULL : counted(__real_calloc(count, size)); }

void *__wrap_realloc(void *block, size_t size) {
    if (is_refused()) return NULL;
    return block == NULL ? counted(__real_malloc(size)) : __real_realloc(block, size);
}

void __wrap_free(void *block) {
    if (block != NULL) atomic_fetch_sub(&in_use, 1);
    __real_free(block);
}

JNIEXPORT jlong JNICALL Java_sched_tests_Memory_blocks(JNIEnv *env, jclass java) {
    (void)env; (void)java;
    return atomic_load(&in_use);
}

JNIEXPORT void JNICALL Java_sched_tests_Memory_allow(JNIEnv *env, jclass java, jlong growths) {
    (void)env; (void)java;
    atomic_store(&allowed, growths);
}
