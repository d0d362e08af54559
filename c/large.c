/* Maps and sets of more than the other tests reach: 20,000 pairs or elements, room for 100,000 more, and strings of up to a megabyte. Both
 * calls that insert ask for the same memory, and for no larger table where room was made. At the end no block is left. */
#include "flurry.h"
#include "requests.h"
#include <string.h>

enum { MANY = 20000, ROOM = 100000, SMALL = 1024, LONGEST = (1 << 20) + 1 };

/* The number of a place uses high and low bits. */
static uint64_t number_of(uint64_t place) {
    return place << 45 | place;
}

/* The string of a place has the bytes of its number. */
static void string_of(uint64_t place, unsigned char string[8]) {
    uint64_t number = number_of(place);
    memcpy(string, &number, 8);
}

/* How many bytes were asked for since `before`, which becomes what was asked for until now. */
static size_t asked_since(size_t *before) {
    size_t asked = granted - *before;
    *before = granted;
    return asked;
}

/* ---- Maps of numbers ---- */

/* Fill two maps that are alike, one by each call that inserts. */
static void fill_numbers(flurry_words *map, flurry_words *other) {
    size_t before = granted;
    for (uint64_t place = 0; place < MANY; place++) {
        uint64_t told = 77;
        CHECK(flurry_words_insert(map, number_of(place), place, &told) == FLURRY_ABSENT);
        size_t asked = asked_since(&before);
        CHECK(flurry_words_try_insert(other, number_of(place), place, &told) == FLURRY_ABSENT);
        CHECK(told == 77 && asked_since(&before) == asked);
    }
    CHECK(flurry_words_len(map) == MANY && flurry_words_len(other) == MANY);
}

/* Each call of a key that is present, once at each, until none is. */
static void empty_numbers(flurry_words *map) {
    for (uint64_t place = 0; place < MANY; place++) {
        uint64_t told = 77, key = number_of(place);
        CHECK(flurry_words_contains(map, key) && !flurry_words_contains(map, ~key));
        CHECK(flurry_words_try_insert(map, key, 5, &told) == FLURRY_PRESENT && told == place);
        CHECK(flurry_words_insert(map, key, 6, &told) == FLURRY_PRESENT && told == place);
        CHECK(flurry_words_get(map, key, &told) == FLURRY_PRESENT && told == 6);
        size_t before = granted;
        CHECK(flurry_words_remove(map, key, &told) == FLURRY_PRESENT && told == 6);
        CHECK(granted == before && flurry_words_len(map) == MANY - 1 - place);
    }
}

static void of_numbers(void) {
    flurry_words map, other;
    CHECK(flurry_words_new(&map) == FLURRY_DONE && flurry_words_new(&other) == FLURRY_DONE);
    fill_numbers(&map, &other);
    empty_numbers(&map);
    empty_numbers(&other);
    CHECK(flurry_words_reserve(&map, ROOM) == FLURRY_DONE && flurry_words_reserve(&other, ROOM) == FLURRY_DONE);
    largest = 0;
    fill_numbers(&map, &other);
    CHECK(largest < SMALL);
    flurry_words_free(&map);
    flurry_words_free(&other);
}

/* ---- Maps of bytes ---- */

/* Fill two maps that are alike, one by each call that inserts. Each key is its own value. */
static void fill_strings(flurry_bytes *map, flurry_bytes *other) {
    size_t before = granted;
    for (uint64_t place = 0; place < MANY; place++) {
        unsigned char key[8];
        string_of(place, key);
        CHECK(flurry_bytes_insert(map, key, 8, key, 8) == FLURRY_ABSENT);
        size_t asked = asked_since(&before);
        CHECK(flurry_bytes_try_insert(other, key, 8, key, 8) == FLURRY_ABSENT && asked_since(&before) == asked);
    }
    CHECK(flurry_bytes_len(map) == MANY && flurry_bytes_len(other) == MANY && flurry_bytes_size(map) == 16 * MANY);
}

/* Each call of a key that is present, once at each, until none is. */
static void empty_strings(flurry_bytes *map) {
    for (uint64_t place = 0; place < MANY; place++) {
        unsigned char key[8], value[8];
        size_t len = 77;
        string_of(place, key);
        CHECK(flurry_bytes_contains(map, key, 8) && !flurry_bytes_contains(map, key, 7));
        CHECK(flurry_bytes_try_insert(map, key, 8, "no", 2) == FLURRY_PRESENT);
        CHECK(flurry_bytes_get(map, key, 8, value, 8, &len) == FLURRY_PRESENT && len == 8 && memcmp(key, value, 8) == 0);
        CHECK(flurry_bytes_insert(map, key, 8, "yes", 3) == FLURRY_PRESENT);
        CHECK(flurry_bytes_get(map, key, 8, value, 8, &len) == FLURRY_PRESENT && len == 3 && memcmp(value, "yes", 3) == 0);
        size_t before = granted;
        CHECK(flurry_bytes_remove(map, key, 8) == FLURRY_PRESENT);
        CHECK(granted == before && flurry_bytes_len(map) == MANY - 1 - place);
    }
}

static void of_bytes(void) {
    flurry_bytes map, other;
    CHECK(flurry_bytes_new(&map) == FLURRY_DONE && flurry_bytes_new(&other) == FLURRY_DONE);
    fill_strings(&map, &other);
    empty_strings(&map);
    empty_strings(&other);
    CHECK(flurry_bytes_reserve(&map, ROOM) == FLURRY_DONE && flurry_bytes_reserve(&other, ROOM) == FLURRY_DONE);
    largest = 0;
    fill_strings(&map, &other);
    CHECK(largest < SMALL);
    flurry_bytes_free(&map);
    flurry_bytes_free(&other);
}

/* ---- Sets of numbers ---- */

static void fill_number_set(flurry_word_set *set) {
    for (uint64_t place = 0; place < MANY; place++) {
        CHECK(flurry_word_set_insert(set, number_of(place)) == FLURRY_ABSENT);
        CHECK(flurry_word_set_insert(set, number_of(place)) == FLURRY_PRESENT && flurry_word_set_len(set) == place + 1);
    }
}

static void empty_number_set(flurry_word_set *set) {
    for (uint64_t place = 0; place < MANY; place++) {
        uint64_t element = number_of(place);
        size_t before = granted;
        CHECK(flurry_word_set_contains(set, element) && !flurry_word_set_contains(set, ~element));
        CHECK(flurry_word_set_remove(set, element) == FLURRY_PRESENT);
        CHECK(granted == before && flurry_word_set_len(set) == MANY - 1 - place);
    }
}

static void of_number_set(void) {
    flurry_word_set set;
    CHECK(flurry_word_set_new(&set) == FLURRY_DONE);
    fill_number_set(&set);
    empty_number_set(&set);
    CHECK(flurry_word_set_reserve(&set, ROOM) == FLURRY_DONE);
    largest = 0;
    fill_number_set(&set);
    CHECK(largest < SMALL);
    flurry_word_set_free(&set);
}

/* ---- Sets of byte strings ---- */

static void fill_string_set(flurry_byte_set *set) {
    for (uint64_t place = 0; place < MANY; place++) {
        unsigned char element[8];
        string_of(place, element);
        CHECK(flurry_byte_set_insert(set, element, 8) == FLURRY_ABSENT);
        CHECK(flurry_byte_set_insert(set, element, 8) == FLURRY_PRESENT && flurry_byte_set_len(set) == place + 1);
    }
    CHECK(flurry_byte_set_size(set) == 8 * MANY);
}

static void empty_string_set(flurry_byte_set *set) {
    for (uint64_t place = 0; place < MANY; place++) {
        unsigned char element[8];
        size_t before = granted;
        string_of(place, element);
        CHECK(flurry_byte_set_contains(set, element, 8) && !flurry_byte_set_contains(set, element, 7));
        CHECK(flurry_byte_set_remove(set, element, 8) == FLURRY_PRESENT);
        CHECK(granted == before && flurry_byte_set_len(set) == MANY - 1 - place);
    }
}

static void of_string_set(void) {
    flurry_byte_set set;
    CHECK(flurry_byte_set_new(&set) == FLURRY_DONE);
    fill_string_set(&set);
    empty_string_set(&set);
    CHECK(flurry_byte_set_reserve(&set, ROOM) == FLURRY_DONE);
    largest = 0;
    fill_string_set(&set);
    CHECK(largest < SMALL);
    flurry_byte_set_free(&set);
}

/* ---- Long strings ---- */

static unsigned char string[LONGEST], copy[LONGEST];

/* A key and its value are the first `len` bytes of `string`. */
static void call_long(flurry_bytes *map, size_t len) {
    size_t told = 77, half = len / 2;
    CHECK(flurry_bytes_insert(map, string, len, string, half) == FLURRY_ABSENT);
    CHECK(flurry_bytes_insert(map, string, len, string, len) == FLURRY_PRESENT);
    CHECK(flurry_bytes_try_insert(map, string, len, string, half) == FLURRY_PRESENT);
    memset(copy, 79, len);
    CHECK(flurry_bytes_get(map, string, len, copy, half, &told) == FLURRY_PRESENT && told == len);
    CHECK(memcmp(copy, string, half) == 0 && copy[half] == 79);
    CHECK(flurry_bytes_get(map, string, len, copy, len, &told) == FLURRY_PRESENT && memcmp(copy, string, len) == 0);
    CHECK(!flurry_bytes_contains(map, string, len - 1) && !flurry_bytes_contains(map, string + 1, len - 1));
    CHECK(flurry_bytes_remove(map, string, len) == FLURRY_PRESENT && flurry_bytes_len(map) == 0);
    CHECK(flurry_bytes_try_insert(map, string, len, string, len) == FLURRY_ABSENT && flurry_bytes_size(map) == 2 * len);
    CHECK(flurry_bytes_remove(map, string, len) == FLURRY_PRESENT);
}

/* An element is the first `len` bytes of `string`. */
static void call_long_element(flurry_byte_set *set, size_t len) {
    CHECK(flurry_byte_set_insert(set, string, len) == FLURRY_ABSENT && flurry_byte_set_insert(set, string, len) == FLURRY_PRESENT);
    CHECK(flurry_byte_set_contains(set, string, len) && !flurry_byte_set_contains(set, string, len - 1));
    CHECK(flurry_byte_set_size(set) == len && flurry_byte_set_remove(set, string, len) == FLURRY_PRESENT);
}

/* Strings of each power of two of bytes, of one byte less, and of one more. */
static void of_long_strings(void) {
    flurry_bytes map;
    flurry_byte_set set;
    for (size_t at = 0; at < LONGEST; at++) string[at] = (unsigned char)draw(256);
    CHECK(flurry_bytes_new(&map) == FLURRY_DONE && flurry_byte_set_new(&set) == FLURRY_DONE);
    for (size_t power = 4; power < LONGEST; power *= 2) {
        for (size_t len = power - 1; len <= power + 1; len++) {
            call_long(&map, len);
            call_long_element(&set, len);
        }
    }
    flurry_bytes_free(&map);
    flurry_byte_set_free(&set);
}

int main(void) {
    of_numbers();
    of_bytes();
    of_number_set();
    of_string_set();
    of_long_strings();
    printf("%d pairs, %d elements, %d bytes, %ld blocks left\n", MANY, MANY, LONGEST, blocks);
    return blocks != 0;
}
