/* Random calls of a set of numbers and of a set of byte strings, beside plain arrays of flags. At the end no block is left. */
#include "flurry.h"
#include "requests.h"
#include "keys.h"

enum { CALLS = 1000000 };

/* ---- Numbers ---- */

static int number_flags[NUMBERS];

/* All elements are told once, and a buffer that is too short stays as it is. */
static void see_numbers(flurry_word_set *set, size_t count) {
    static uint64_t elements[NUMBERS];
    static int seen[NUMBERS];
    elements[0] = 77;
    CHECK(flurry_word_set_len(set) == count);
    if (count > 0) CHECK(flurry_word_set_elements(set, elements, count - 1) == FLURRY_NO_ROOM && elements[0] == 77);
    for (size_t i = count; i < NUMBERS; i++) elements[i] = 77;
    CHECK(flurry_word_set_elements(set, elements, NUMBERS) == FLURRY_DONE);
    for (size_t i = count; i < NUMBERS; i++) CHECK(elements[i] == 77);
    memset(seen, 0, sizeof seen);
    for (size_t i = 0; i < count; i++) {
        uint64_t flag = place_of_number(elements[i]);
        CHECK(number_flags[flag] && !seen[flag]);
        seen[flag] = 1;
    }
}

static void call_numbers(flurry_word_set *set, size_t *count) {
    uint64_t flag = draw(NUMBERS), kind = draw(1000);
    int was = number_flags[flag];
    flurry_status told = was ? FLURRY_PRESENT : FLURRY_ABSENT;
    if (kind < 450) {
        CHECK(flurry_word_set_insert(set, number_of(flag)) == told);
        number_flags[flag] = 1;
    } else if (kind < 750) {
        CHECK(flurry_word_set_remove(set, number_of(flag)) == told);
        number_flags[flag] = 0;
    } else if (kind < 998) {
        CHECK(flurry_word_set_contains(set, number_of(flag)) == was);
    } else if (kind == 998) {
        CHECK(flurry_word_set_reserve(set, draw(5000)) == FLURRY_DONE);
        see_numbers(set, *count);
    } else if (draw(20) == 0) {
        flurry_word_set_clear(set);
        memset(number_flags, 0, sizeof number_flags);
        *count = 0;
        return;
    }
    *count += number_flags[flag] - was;
    CHECK(flurry_word_set_len(set) == *count);
}

static void of_numbers(void) {
    flurry_word_set set;
    size_t count = 0;
    CHECK(flurry_word_set_new(&set) == FLURRY_DONE && flurry_word_set_len(&set) == 0);
    for (int call = 0; call < CALLS; call++) call_numbers(&set, &count);
    for (uint64_t flag = 0; flag < NUMBERS; flag++) CHECK(flurry_word_set_contains(&set, number_of(flag)) == number_flags[flag]);
    see_numbers(&set, count);
    flurry_word_set_free(&set);
}

/* ---- Byte strings ---- */

static int string_flags[STRINGS];

/* All elements are told once, and buffers of which one is too short stay as they are. */
static void see_strings(flurry_byte_set *set, size_t count) {
    static size_t lengths[STRINGS];
    static unsigned char text[STRINGS * MOST];
    static int seen[STRINGS];
    size_t size = flurry_byte_set_size(set), at = 0;
    lengths[0] = 77, text[0] = 77;
    CHECK(flurry_byte_set_len(set) == count);
    if (count > 0) CHECK(flurry_byte_set_elements(set, lengths, count - 1, text, sizeof text) == FLURRY_NO_ROOM);
    if (size > 0) CHECK(flurry_byte_set_elements(set, lengths, count, text, size - 1) == FLURRY_NO_ROOM);
    CHECK(lengths[0] == 77 && text[0] == 77);
    memset(text, 77, sizeof text);
    CHECK(flurry_byte_set_elements(set, lengths, count, text, sizeof text) == FLURRY_DONE);
    memset(seen, 0, sizeof seen);
    for (size_t i = 0; i < count; i++) {
        uint64_t flag = place_of_string(text + at, lengths[i]);
        CHECK(string_flags[flag] && !seen[flag]);
        seen[flag] = 1;
        at += lengths[i];
    }
    CHECK(at == size);
    for (; at < sizeof text; at++) CHECK(text[at] == 77);
}

static void call_strings(flurry_byte_set *set, size_t *count) {
    unsigned char string[MOST];
    uint64_t drawn = draw(STRINGS), kind = draw(1000);
    size_t len = string_of(drawn, string);
    uint64_t flag = place_of_string(string, len);
    int was = string_flags[flag];
    flurry_status told = was ? FLURRY_PRESENT : FLURRY_ABSENT;
    if (kind < 450) {
        CHECK(flurry_byte_set_insert(set, string, len) == told);
        string_flags[flag] = 1;
    } else if (kind < 750) {
        CHECK(flurry_byte_set_remove(set, string, len) == told);
        string_flags[flag] = 0;
    } else if (kind < 998) {
        CHECK(flurry_byte_set_contains(set, string, len) == was);
    } else if (kind == 998) {
        CHECK(flurry_byte_set_reserve(set, draw(5000)) == FLURRY_DONE);
        see_strings(set, *count);
    } else if (draw(20) == 0) {
        flurry_byte_set_clear(set);
        memset(string_flags, 0, sizeof string_flags);
        *count = 0;
        return;
    }
    *count += string_flags[flag] - was;
    CHECK(flurry_byte_set_len(set) == *count);
}

static void of_strings(void) {
    flurry_byte_set set;
    size_t count = 0;
    CHECK(flurry_byte_set_new(&set) == FLURRY_DONE && flurry_byte_set_len(&set) == 0);
    for (int call = 0; call < CALLS; call++) call_strings(&set, &count);
    see_strings(&set, count);
    flurry_byte_set_free(&set);
}

int main(void) {
    of_numbers();
    of_strings();
    printf("%d calls of sets, %ld blocks left\n", 2 * CALLS, blocks);
    return blocks != 0;
}
