/* Counts the blocks that a library has, and refuses growths. What includes this is linked with
 * -Wl,--wrap=malloc,--wrap=realloc,--wrap=free. */
#include <stdbool.h>
#include <stddef.h>

void *__real_malloc(size_t size);
void *__real_realloc(void *block, size_t size);
void __real_free(void *block);
void *__wrap_malloc(size_t size);
void *__wrap_realloc(void *block, size_t size);
void __wrap_free(void *block);

static long refused; /* which growth is refused, counted from now; 0: none, -1: all */
static bool met;     /* whether one was refused */
static long blocks;  /* how many blocks are in use */

static bool refuses(void) {
    bool now = refused == -1 || refused == 1;
    met = met || now;
    if (refused > 0) refused -= 1;
    return now;
}

void *__wrap_malloc(size_t size) {
    if (refuses()) return NULL;
    void *block = __real_malloc(size);
    blocks += block != NULL;
    return block;
}

void *__wrap_realloc(void *block, size_t size) {
    if (refuses()) return NULL;
    void *moved = __real_realloc(block, size);
    blocks += block == NULL && moved != NULL;
    return moved;
}

void __wrap_free(void *block) {
    blocks -= block != NULL;
    __real_free(block);
}
