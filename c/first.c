#include "flurry.h"
#include <stdio.h>

int main(void) {
    flurry_words ages;
    uint64_t age;
    if (flurry_words_new(&ages) != FLURRY_DONE) return 1;
    flurry_words_insert(&ages, 7, 41, &age);
    if (flurry_words_insert(&ages, 7, 42, &age) == FLURRY_PRESENT)
        printf("was %llu\n", (unsigned long long)age);
    if (flurry_words_get(&ages, 7, &age) == FLURRY_PRESENT)
        printf("is %llu, of %zu\n", (unsigned long long)age, flurry_words_len(&ages));
    flurry_words_free(&ages);
    return 0;
}
