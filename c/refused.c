/* Calls of which each request for memory is refused in turn: the first, then the second, until the call answers. After each refusal that a
 * call tells of, the map or set is as it was, and at the end no block is left. Look-ups and removals ask for no memory. To free what was
 * not made, or was freed, does nothing. */
#include "flurry.h"
#include "requests.h"
#include <string.h>

enum { KEYS = 301, MOST = 300, CALLS = 8000, FIRST = CALLS / 2, TABLE = 256 * 8 };

/* How many calls answered though a request was refused: insertions that did without a larger table. */
static long done_without;

/* Do `call`, whose status goes to `status`, with its n-th request refused, for n from 0 on, until it says anything but FLURRY_NO_MEMORY.
 * `same` is checked whenever it says that. If `in_turn` is 0, no request is refused. */
#define IN_TURN(in_turn, status, call, same)                       \
    for (long turn = (in_turn) ? 0 : -1;; turn++) {                \
        refuse_after = turn;                                       \
        status = (call);                                           \
        int is_refused = turn >= 0 && refuse_after < 0;            \
        refuse_after = -1;                                         \
        done_without += is_refused && status != FLURRY_NO_MEMORY;  \
        if (status != FLURRY_NO_MEMORY) break;                     \
        CHECK(is_refused && (same));                               \
    }

/* Do `call`, which asks for no memory. */
#define WITHOUT_MEMORY(call)        \
    do {                            \
        refuse_after = 0;           \
        call;                       \
        CHECK(refuse_after == 0);   \
        refuse_after = -1;          \
    } while (0)

/* Nothing is refused of half of the first calls, so that insertions enlarge the table. No first call asks for room. */
static int in_turn(int call) {
    return call >= FIRST || draw(2) == 0;
}

/* After the first calls: insertions enlarged the table, which is the largest block, and where that was refused they did without. */
static void see_growth(int call) {
    if (call == FIRST) CHECK(largest >= TABLE && done_without > 0);
}

static void begin(void) {
    largest = 0, done_without = 0;
}

static struct {
    int present;
    uint64_t value;
} numbers[KEYS];

static int is_number(flurry_words *map, uint64_t key) {
    uint64_t value = 77;
    int found;
    WITHOUT_MEMORY(found = flurry_words_get(map, key, &value) == FLURRY_PRESENT);
    return found == numbers[key].present && value == (found ? numbers[key].value : 77);
}

static void call_number(flurry_words *map, int call, size_t *count) {
    uint64_t key = draw(KEYS), told = 77;
    flurry_status status;
    size_t additional = draw(4 * CALLS);
    int was = numbers[key].present, kind = (int)draw(call < FIRST ? 7 : 8), turns = in_turn(call);
#define SAME (told == 77 && is_number(map, key) && flurry_words_len(map) == *count)
    if (kind < 4) {
        IN_TURN(turns, status, flurry_words_insert(map, key, call, &told), SAME);
    } else if (kind < 6) {
        IN_TURN(turns, status, flurry_words_try_insert(map, key, call, &told), SAME);
    } else if (kind == 6) {
        WITHOUT_MEMORY(status = flurry_words_remove(map, key, &told));
    } else {
        IN_TURN(turns, status, flurry_words_reserve(map, additional), SAME);
        CHECK(status == FLURRY_DONE && SAME);
        return;
    }
    CHECK(status == (was ? FLURRY_PRESENT : FLURRY_ABSENT) && told == (was ? numbers[key].value : 77));
    numbers[key].present = kind < 6;
    if (kind < 4 || !was) numbers[key].value = call;
    *count += numbers[key].present - was;
    CHECK(is_number(map, key) && flurry_words_len(map) == *count);
#undef SAME
}

static void of_numbers(void) {
    flurry_words map;
    flurry_status status;
    size_t count = 0;
    begin();
    IN_TURN(1, status, flurry_words_new(&map), map.at == NULL && (flurry_words_free(&map), map.at == NULL));
    for (int call = 0; call < CALLS; call++) {
        see_growth(call);
        call_number(&map, call, &count);
    }
    for (uint64_t key = 0; key < KEYS; key++) CHECK(is_number(&map, key));
    flurry_words_free(&map);
    CHECK(map.at == NULL);
    flurry_words_free(&map);
}

static struct {
    int present;
    size_t len;
    unsigned char value[MOST];
} texts[KEYS];

/* The key with this number has as many bytes. */
static size_t key_of(uint64_t number, unsigned char *key) {
    memset(key, (int)number, number);
    return number;
}

static int is_text(flurry_bytes *map, uint64_t number) {
    unsigned char key[MOST], value[MOST];
    size_t key_len = key_of(number, key), len = 77;
    int found, is_there;
    WITHOUT_MEMORY(found = flurry_bytes_get(map, key, key_len, value, sizeof value, &len) == FLURRY_PRESENT);
    WITHOUT_MEMORY(is_there = flurry_bytes_contains(map, key, key_len));
    if (found != texts[number].present || found != is_there) return 0;
    return found ? len == texts[number].len && memcmp(value, texts[number].value, len) == 0 : len == 77;
}

static void call_text(flurry_bytes *map, int call, size_t *count) {
    unsigned char key[MOST], value[MOST];
    flurry_status status;
    uint64_t number = draw(KEYS);
    size_t key_len = key_of(number, key), len = draw(MOST + 1), additional = draw(4 * CALLS);
    int was = texts[number].present, kind = (int)draw(call < FIRST ? 7 : 8), turns = in_turn(call);
    memset(value, call, len);
#define SAME (is_text(map, number) && flurry_bytes_len(map) == *count)
    if (kind < 3) {
        IN_TURN(turns, status, flurry_bytes_insert(map, key, key_len, value, len), SAME);
    } else if (kind < 5) {
        IN_TURN(turns, status, flurry_bytes_try_insert(map, key, key_len, value, len), SAME);
    } else if (kind < 7) {
        WITHOUT_MEMORY(status = flurry_bytes_remove(map, key, key_len));
    } else {
        IN_TURN(turns, status, flurry_bytes_reserve(map, additional), SAME);
        CHECK(status == FLURRY_DONE && SAME);
        return;
    }
    CHECK(status == (was ? FLURRY_PRESENT : FLURRY_ABSENT));
    texts[number].present = kind < 5;
    if (kind < 3 || (kind < 5 && !was)) {
        texts[number].len = len;
        memcpy(texts[number].value, value, len);
    }
    *count += texts[number].present - was;
    CHECK(SAME);
#undef SAME
}

static void of_bytes(void) {
    flurry_bytes map;
    flurry_status status;
    size_t count = 0;
    begin();
    IN_TURN(1, status, flurry_bytes_new(&map), map.at == NULL && (flurry_bytes_free(&map), map.at == NULL));
    for (int call = 0; call < CALLS; call++) {
        see_growth(call);
        call_text(&map, call, &count);
    }
    for (uint64_t number = 0; number < KEYS; number++) CHECK(is_text(&map, number));
    flurry_bytes_free(&map);
    CHECK(map.at == NULL);
    flurry_bytes_free(&map);
}

static int elements[KEYS];

static void call_element(flurry_word_set *set, int call, size_t *count) {
    uint64_t element = draw(KEYS);
    flurry_status status;
    size_t additional = draw(4 * CALLS);
    int was = elements[element], kind = (int)draw(call < FIRST ? 7 : 8), turns = in_turn(call);
#define SAME (flurry_word_set_contains(set, element) == elements[element] && flurry_word_set_len(set) == *count)
    if (kind < 5) {
        IN_TURN(turns, status, flurry_word_set_insert(set, element), SAME);
    } else if (kind < 7) {
        WITHOUT_MEMORY(status = flurry_word_set_remove(set, element));
    } else {
        IN_TURN(turns, status, flurry_word_set_reserve(set, additional), SAME);
        CHECK(status == FLURRY_DONE && SAME);
        return;
    }
    CHECK(status == (was ? FLURRY_PRESENT : FLURRY_ABSENT));
    elements[element] = kind < 5;
    *count += elements[element] - was;
    CHECK(SAME);
#undef SAME
}

static void of_number_set(void) {
    flurry_word_set set;
    flurry_status status;
    size_t count = 0;
    begin();
    IN_TURN(1, status, flurry_word_set_new(&set), set.at == NULL && (flurry_word_set_free(&set), set.at == NULL));
    for (int call = 0; call < CALLS; call++) {
        see_growth(call);
        call_element(&set, call, &count);
    }
    for (uint64_t element = 0; element < KEYS; element++) CHECK(flurry_word_set_contains(&set, element) == elements[element]);
    flurry_word_set_free(&set);
    CHECK(set.at == NULL);
    flurry_word_set_free(&set);
}

static int strings[KEYS];

static int is_string(flurry_byte_set *set, uint64_t number) {
    unsigned char element[MOST];
    size_t len = key_of(number, element);
    int found;
    WITHOUT_MEMORY(found = flurry_byte_set_contains(set, element, len));
    return found == strings[number];
}

static void call_string(flurry_byte_set *set, int call, size_t *count) {
    unsigned char element[MOST];
    flurry_status status;
    uint64_t number = draw(KEYS);
    size_t len = key_of(number, element), additional = draw(4 * CALLS);
    int was = strings[number], kind = (int)draw(call < FIRST ? 7 : 8), turns = in_turn(call);
#define SAME (is_string(set, number) && flurry_byte_set_len(set) == *count)
    if (kind < 4) {
        IN_TURN(turns, status, flurry_byte_set_insert(set, element, len), SAME);
    } else if (kind < 7) {
        WITHOUT_MEMORY(status = flurry_byte_set_remove(set, element, len));
    } else {
        IN_TURN(turns, status, flurry_byte_set_reserve(set, additional), SAME);
        CHECK(status == FLURRY_DONE && SAME);
        return;
    }
    CHECK(status == (was ? FLURRY_PRESENT : FLURRY_ABSENT));
    strings[number] = kind < 4;
    *count += strings[number] - was;
    CHECK(SAME);
#undef SAME
}

static void of_byte_set(void) {
    flurry_byte_set set;
    flurry_status status;
    size_t count = 0;
    begin();
    IN_TURN(1, status, flurry_byte_set_new(&set), set.at == NULL && (flurry_byte_set_free(&set), set.at == NULL));
    for (int call = 0; call < CALLS; call++) {
        see_growth(call);
        call_string(&set, call, &count);
    }
    for (uint64_t number = 0; number < KEYS; number++) CHECK(is_string(&set, number));
    flurry_byte_set_free(&set);
    CHECK(set.at == NULL);
    flurry_byte_set_free(&set);
}

int main(void) {
    of_numbers();
    of_bytes();
    of_number_set();
    of_byte_set();
    printf("%d calls, %ld refusals, %ld blocks left\n", 4 * CALLS, refusals, blocks);
    return blocks != 0;
}
