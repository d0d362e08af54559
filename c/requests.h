/* For tests: requests for memory, one of which is refused where a test asks for that; how many blocks are not given back, how large the
 * largest was, and how many bytes all had; draws; and a check. Linked with -Wl,--wrap=malloc,--wrap=realloc,--wrap=free. */
#include <stdint.h>
#include <stdio.h>
#include <stdlib.h>

#define CHECK(holds) ((holds) ? (void)0 : (printf("line %d: %s does not hold\n", __LINE__, #holds), exit(1)))

void *__real_malloc(size_t size);
void *__real_realloc(void *at, size_t size);
void __real_free(void *at);

static long refuse_after = -1, blocks, refusals;
/* Of the requests that were met: the largest, and the sum of all, from which nothing is taken when a block is given back. */
static size_t largest, granted;

static int refuses(void) {
    if (refuse_after >= 0 && refuse_after-- == 0) {
        refusals++;
        return 1;
    }
    return 0;
}

static void *met(void *at, size_t size) {
    if (at == NULL) return NULL;
    granted += size;
    if (size > largest) largest = size;
    return at;
}

void *__wrap_malloc(size_t size) {
    void *at = refuses() ? NULL : met(__real_malloc(size), size);
    blocks += at != NULL;
    return at;
}

void *__wrap_realloc(void *at, size_t size) {
    void *moved = refuses() ? NULL : met(__real_realloc(at, size), size);
    blocks += at == NULL && moved != NULL;
    return moved;
}

void __wrap_free(void *at) {
    blocks -= at != NULL;
    __real_free(at);
}

static inline uint64_t draw(uint64_t below) {
    static uint64_t seed = 1;
    seed = seed * 6364136223846793005u + 1442695040888963407u;
    return (seed >> 33) % below;
}
