/* Room for more than there is memory, under a limit of addresses: each map and set of one pair or element refuses to make room for SIZE_MAX
 * more. That call is given no block, and the map or set is as it was. So is an empty one. At the end no block is left. */
#define _DEFAULT_SOURCE
#include "flurry.h"
#include "requests.h"
#include <string.h>
#include <sys/resource.h>
#include <unistd.h>

/* Half a gigabyte of addresses, beside those that the process has. A table of 2^30 bins has more. */
enum { LEFT = 1 << 29 };

/* What is refused is told to the caller, as malloc does. */
const char *__asan_default_options(void);
const char *__asan_default_options(void) {
    return "allocator_may_return_null=1";
}

static void limit_addresses(void) {
    unsigned long pages = 0;
    struct rlimit limit;
    FILE *sizes = fopen("/proc/self/statm", "r");
    CHECK(sizes != NULL && fscanf(sizes, "%lu", &pages) == 1 && fclose(sizes) == 0);
    CHECK(getrlimit(RLIMIT_AS, &limit) == 0);
    limit.rlim_cur = (rlim_t)pages * (rlim_t)sysconf(_SC_PAGESIZE) + LEFT;
    CHECK(setrlimit(RLIMIT_AS, &limit) == 0);
}

/* `call` is refused, and no block is given out or given back in it. */
#define REFUSED(call)                                                \
    do {                                                             \
        size_t granted_before = granted;                             \
        long blocks_before = blocks;                                 \
        CHECK((call) == FLURRY_NO_MEMORY);                           \
        CHECK(granted == granted_before && blocks == blocks_before); \
    } while (0)

/* All that is asked for is refused alike. */
static const size_t rooms[] = {SIZE_MAX, SIZE_MAX / 2, (size_t)1 << 40, (size_t)1 << 31, (size_t)1 << 29};
enum { ROOMS = sizeof rooms / sizeof rooms[0] };

static void of_numbers(void) {
    flurry_words map;
    uint64_t told = 77;
    CHECK(flurry_words_new(&map) == FLURRY_DONE);
    for (int i = 0; i < ROOMS; i++) REFUSED(flurry_words_reserve(&map, rooms[i]));
    CHECK(flurry_words_insert(&map, 7, 1, &told) == FLURRY_ABSENT);
    for (int i = 0; i < ROOMS; i++) REFUSED(flurry_words_reserve(&map, rooms[i]));
    CHECK(flurry_words_len(&map) == 1 && flurry_words_get(&map, 7, &told) == FLURRY_PRESENT && told == 1);
    CHECK(flurry_words_reserve(&map, 1000) == FLURRY_DONE && flurry_words_remove(&map, 7, &told) == FLURRY_PRESENT);
    flurry_words_free(&map);
}

static void of_bytes(void) {
    flurry_bytes map;
    char value[5];
    size_t len = 77;
    CHECK(flurry_bytes_new(&map) == FLURRY_DONE);
    for (int i = 0; i < ROOMS; i++) REFUSED(flurry_bytes_reserve(&map, rooms[i]));
    CHECK(flurry_bytes_insert(&map, "key", 3, "value", 5) == FLURRY_ABSENT);
    for (int i = 0; i < ROOMS; i++) REFUSED(flurry_bytes_reserve(&map, rooms[i]));
    CHECK(flurry_bytes_len(&map) == 1 && flurry_bytes_get(&map, "key", 3, value, 5, &len) == FLURRY_PRESENT);
    CHECK(len == 5 && memcmp(value, "value", 5) == 0);
    CHECK(flurry_bytes_reserve(&map, 1000) == FLURRY_DONE && flurry_bytes_remove(&map, "key", 3) == FLURRY_PRESENT);
    flurry_bytes_free(&map);
}

static void of_number_set(void) {
    flurry_word_set set;
    CHECK(flurry_word_set_new(&set) == FLURRY_DONE);
    for (int i = 0; i < ROOMS; i++) REFUSED(flurry_word_set_reserve(&set, rooms[i]));
    CHECK(flurry_word_set_insert(&set, 7) == FLURRY_ABSENT);
    for (int i = 0; i < ROOMS; i++) REFUSED(flurry_word_set_reserve(&set, rooms[i]));
    CHECK(flurry_word_set_len(&set) == 1 && flurry_word_set_contains(&set, 7));
    CHECK(flurry_word_set_reserve(&set, 1000) == FLURRY_DONE && flurry_word_set_remove(&set, 7) == FLURRY_PRESENT);
    flurry_word_set_free(&set);
}

static void of_string_set(void) {
    flurry_byte_set set;
    CHECK(flurry_byte_set_new(&set) == FLURRY_DONE);
    for (int i = 0; i < ROOMS; i++) REFUSED(flurry_byte_set_reserve(&set, rooms[i]));
    CHECK(flurry_byte_set_insert(&set, "key", 3) == FLURRY_ABSENT);
    for (int i = 0; i < ROOMS; i++) REFUSED(flurry_byte_set_reserve(&set, rooms[i]));
    CHECK(flurry_byte_set_len(&set) == 1 && flurry_byte_set_contains(&set, "key", 3));
    CHECK(flurry_byte_set_reserve(&set, 1000) == FLURRY_DONE && flurry_byte_set_remove(&set, "key", 3) == FLURRY_PRESENT);
    flurry_byte_set_free(&set);
}

int main(void) {
    limit_addresses();
    of_numbers();
    of_bytes();
    of_number_set();
    of_string_set();
    printf("%d requests for room, %ld blocks left\n", 4 * 2 * ROOMS, blocks);
    return blocks != 0;
}
