/* For tests, after requests.h: numbers and byte strings, each of which has a place in an array. */
#include <stddef.h>
#include <stdint.h>
#include <string.h>

enum { NUMBERS = 3000, MOST = 300, KINDS = 3, STRINGS = (MOST + 1) * KINDS };

/* The number of a place uses high and low bits. */
static uint64_t number_of(uint64_t place) {
    return place << 50 | place;
}

/* The place of a number. */
static uint64_t place_of_number(uint64_t number) {
    uint64_t place = number & 0xffff;
    CHECK(place < NUMBERS && number == number_of(place));
    return place;
}

/* The string of a place: some number of bytes from 0 to 300, all but the last of which are alike. Returns how many. */
static size_t string_of(uint64_t place, unsigned char *bytes) {
    size_t len = place / KINDS;
    memset(bytes, 200, len);
    if (len > 0) bytes[len - 1] = (unsigned char)(place % KINDS);
    return len;
}

/* The place of a string. The strings without bytes have one. */
static uint64_t place_of_string(const unsigned char *bytes, size_t len) {
    unsigned char string[MOST];
    CHECK(len <= MOST);
    uint64_t place = len == 0 ? 0 : len * KINDS + bytes[len - 1];
    CHECK(place < STRINGS && string_of(place, string) == len && memcmp(string, bytes, len) == 0);
    return place;
}
