/* Random calls of a map of numbers and of a map of bytes, beside plain arrays of pairs. At the end no block is left. */
#include "flurry.h"
#include "requests.h"
#include "keys.h"

enum { CALLS = 1000000 };

/* ---- Numbers ---- */

static struct {
    int present;
    uint64_t value;
} numbers[NUMBERS];

/* All pairs are told once, and a buffer that is too short stays as it is. */
static void see_numbers(flurry_words *map, size_t count) {
    static flurry_word_pair pairs[NUMBERS];
    static int seen[NUMBERS];
    pairs[0].key = 77, pairs[0].value = 78;
    CHECK(flurry_words_len(map) == count);
    if (count > 0) CHECK(flurry_words_pairs(map, pairs, count - 1) == FLURRY_NO_ROOM);
    CHECK(pairs[0].key == 77 && pairs[0].value == 78);
    for (size_t i = count; i < NUMBERS; i++) pairs[i].key = 77, pairs[i].value = 78;
    CHECK(flurry_words_pairs(map, pairs, NUMBERS) == FLURRY_DONE);
    for (size_t i = count; i < NUMBERS; i++) CHECK(pairs[i].key == 77 && pairs[i].value == 78);
    memset(seen, 0, sizeof seen);
    for (size_t i = 0; i < count; i++) {
        uint64_t place = place_of_number(pairs[i].key);
        CHECK(numbers[place].present && numbers[place].value == pairs[i].value && !seen[place]);
        seen[place] = 1;
    }
}

/* A call of one key. It writes the value that was there, if it tells one, and else nothing. */
static void call_number(flurry_words *map, uint64_t kind, uint64_t place, size_t *count) {
    uint64_t key = number_of(place), value = draw(1000) << 40, told = 77;
    int was = numbers[place].present;
    flurry_status status = was ? FLURRY_PRESENT : FLURRY_ABSENT;
    if (kind < 300) {
        CHECK(flurry_words_insert(map, key, value, &told) == status);
    } else if (kind < 450) {
        CHECK(flurry_words_try_insert(map, key, value, &told) == status);
    } else if (kind < 750) {
        CHECK(flurry_words_remove(map, key, &told) == status);
    } else {
        CHECK(flurry_words_get(map, key, &told) == status && flurry_words_contains(map, key) == was);
    }
    CHECK(told == (was ? numbers[place].value : 77));
    numbers[place].present = kind < 450 || (kind >= 750 && was);
    if (kind < 300 || (kind < 450 && !was)) numbers[place].value = value;
    *count += numbers[place].present - was;
}

static void call_numbers(flurry_words *map, size_t *count) {
    uint64_t kind = draw(1000);
    if (kind < 998) {
        call_number(map, kind, draw(NUMBERS), count);
    } else if (kind == 998) {
        CHECK(flurry_words_reserve(map, draw(5000)) == FLURRY_DONE);
        see_numbers(map, *count);
    } else if (draw(20) == 0) {
        flurry_words_clear(map);
        memset(numbers, 0, sizeof numbers);
        *count = 0;
    }
    CHECK(flurry_words_len(map) == *count);
}

static void of_numbers(void) {
    flurry_words map;
    size_t count = 0;
    CHECK(flurry_words_new(&map) == FLURRY_DONE && flurry_words_len(&map) == 0);
    for (int call = 0; call < CALLS; call++) call_numbers(&map, &count);
    see_numbers(&map, count);
    flurry_words_free(&map);
}

/* ---- Bytes ---- */

static struct {
    int present;
    size_t len;
    unsigned char value[MOST];
} texts[STRINGS];

/* All pairs are told once, and buffers of which one is too short stay as they are. */
static void see_texts(flurry_bytes *map, size_t count) {
    static flurry_byte_pair pairs[STRINGS];
    static unsigned char text[STRINGS * 2 * MOST];
    static int seen[STRINGS];
    size_t size = flurry_bytes_size(map), at = 0;
    pairs[0].key = 77, pairs[0].value = 78, text[0] = 79;
    CHECK(flurry_bytes_len(map) == count);
    if (count > 0) CHECK(flurry_bytes_pairs(map, pairs, count - 1, text, sizeof text) == FLURRY_NO_ROOM);
    if (size > 0) CHECK(flurry_bytes_pairs(map, pairs, count, text, size - 1) == FLURRY_NO_ROOM);
    CHECK(pairs[0].key == 77 && pairs[0].value == 78 && text[0] == 79);
    for (size_t i = count; i < STRINGS; i++) pairs[i].key = 77, pairs[i].value = 78;
    memset(text, 79, sizeof text);
    CHECK(flurry_bytes_pairs(map, pairs, STRINGS, text, sizeof text) == FLURRY_DONE);
    for (size_t i = count; i < STRINGS; i++) CHECK(pairs[i].key == 77 && pairs[i].value == 78);
    memset(seen, 0, sizeof seen);
    for (size_t i = 0; i < count; i++) {
        uint64_t place = place_of_string(text + at, pairs[i].key);
        at += pairs[i].key;
        CHECK(texts[place].present && texts[place].len == pairs[i].value && !seen[place]);
        CHECK(memcmp(texts[place].value, text + at, pairs[i].value) == 0);
        at += pairs[i].value;
        seen[place] = 1;
    }
    CHECK(at == size);
    for (; at < sizeof text; at++) CHECK(text[at] == 79);
}

/* The value is copied as far as there is room, and what lies behind it stays. Nothing is written for a key that is absent. */
static void get_text(flurry_bytes *map, const unsigned char *key, size_t key_len, uint64_t place) {
    unsigned char value[MOST];
    size_t len = 77, room = draw(MOST + 1), copied = 0;
    int is_there = texts[place].present;
    memset(value, 79, sizeof value);
    CHECK(flurry_bytes_get(map, key, key_len, value, room, &len) == (is_there ? FLURRY_PRESENT : FLURRY_ABSENT));
    CHECK(len == (is_there ? texts[place].len : 77));
    if (is_there) copied = len < room ? len : room;
    CHECK(memcmp(value, texts[place].value, copied) == 0);
    for (size_t i = copied; i < MOST; i++) CHECK(value[i] == 79);
}

/* A call of one key. */
static void call_text(flurry_bytes *map, uint64_t kind, uint64_t drawn, size_t *count) {
    unsigned char key[MOST], value[MOST];
    size_t key_len = string_of(drawn, key), len = draw(MOST + 1);
    uint64_t place = place_of_string(key, key_len);
    int was = texts[place].present;
    flurry_status status = was ? FLURRY_PRESENT : FLURRY_ABSENT;
    memset(value, (int)draw(256), len);
    if (kind < 300) {
        CHECK(flurry_bytes_insert(map, key, key_len, value, len) == status);
    } else if (kind < 450) {
        CHECK(flurry_bytes_try_insert(map, key, key_len, value, len) == status);
    } else if (kind < 750) {
        CHECK(flurry_bytes_remove(map, key, key_len) == status);
    } else {
        CHECK(flurry_bytes_contains(map, key, key_len) == was);
        get_text(map, key, key_len, place);
    }
    texts[place].present = kind < 450 || (kind >= 750 && was);
    if (kind < 300 || (kind < 450 && !was)) {
        texts[place].len = len;
        memcpy(texts[place].value, value, len);
    }
    *count += texts[place].present - was;
}

static void call_texts(flurry_bytes *map, size_t *count) {
    uint64_t kind = draw(1000);
    if (kind < 998) {
        call_text(map, kind, draw(STRINGS), count);
    } else if (kind == 998) {
        CHECK(flurry_bytes_reserve(map, draw(5000)) == FLURRY_DONE);
        see_texts(map, *count);
    } else if (draw(20) == 0) {
        flurry_bytes_clear(map);
        memset(texts, 0, sizeof texts);
        *count = 0;
        CHECK(flurry_bytes_size(map) == 0);
    }
    CHECK(flurry_bytes_len(map) == *count);
}

/* A key and its value may be the same bytes. */
static void of_one_text(void) {
    flurry_bytes map;
    unsigned char same[] = "same", value[sizeof same];
    size_t len;
    CHECK(flurry_bytes_new(&map) == FLURRY_DONE && flurry_bytes_insert(&map, same, sizeof same, same, sizeof same) == FLURRY_ABSENT);
    CHECK(flurry_bytes_get(&map, same, sizeof same, value, sizeof value, &len) == FLURRY_PRESENT && len == sizeof same);
    CHECK(memcmp(value, same, sizeof same) == 0);
    flurry_bytes_free(&map);
}

static void of_texts(void) {
    flurry_bytes map;
    size_t count = 0;
    CHECK(flurry_bytes_new(&map) == FLURRY_DONE && flurry_bytes_len(&map) == 0);
    for (int call = 0; call < CALLS; call++) call_texts(&map, &count);
    see_texts(&map, count);
    flurry_bytes_free(&map);
}

int main(void) {
    of_numbers();
    of_one_text();
    of_texts();
    printf("%d calls of maps, %ld blocks left\n", 2 * CALLS, blocks);
    return blocks != 0;
}
