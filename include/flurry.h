/* Maps and sets of one owner, proved: see README. Link lib/libflurry.a.
 *
 * Each function does to the finite map or set what is said of it here. That is proved for callers that keep the duties below; nothing
 * checks that they do:
 *
 *   - A `flurry_words *` points to a struct in which flurry_words_new said FLURRY_DONE, a `flurry_bytes *` to one of flurry_bytes_new, a
 *     `flurry_word_set *` to one of flurry_word_set_new, and a `flurry_byte_set *` to one of flurry_byte_set_new, and which was not freed
 *     since. Nobody else writes to it, and nobody else reads, writes or frees what its `at` points to. It may be copied to another place,
 *     but is then used and freed at that place alone. flurry_.._new and flurry_.._free ask for less, as is said there.
 *   - A map or a set is used by one call at a time; calls that only read count too. Any thread may make, use and free one. What orders its
 *     call after one of another thread is a lock that each holds for its call, a start or a join of a thread, or an atomic store and a load
 *     of what was stored, both of them `memory_order_seq_cst`.
 *   - A pointer to a number, or to a buffer of `len` items, is valid for the call: nobody else writes there, and nobody else reads what the
 *     call writes. It is not null, also where there are no items.
 *   - The struct of the map or set, and each number or buffer that a call writes, overlap nothing else that is passed to it. Buffers that
 *     it only reads may overlap each other, as those of a key and a value.
 *   - A buffer is aligned as its type is, and has fewer than 2^63 bytes.
 *   - malloc, realloc and free are of one allocator, and align a block to each power of two up to 16 that divides its size.
 *   - No function is called from a signal handler, or in the child after a fork of a process with threads. A call is left by its return
 *     alone, and not by siglongjmp or by asynchronous cancelling of its thread.
 *   - The stack has room for the call; the most that was measured is 3.6 KB.
 *
 * No function ends the process or waits. A function says FLURRY_NO_MEMORY if memory cannot be allocated, and the map or set is then as it
 * was, unless more is said of the function. One case is no failure: if memory for a larger table cannot be allocated, an insertion does
 * without. It inserts, the table stays as it is, and the next insertion of a new key or element tries again.
 *
 * Keys and elements of the default hasher are not protected against a choice of those that collide; a bin of many is a tree, so a call
 * then takes logarithmic time.
 */
#ifndef FLURRY_H
#define FLURRY_H

#include <stdbool.h>
#include <stddef.h>
#include <stdint.h>

#ifdef __cplusplus
extern "C" {
#endif

/* What a function says. */
typedef uint8_t flurry_status;
enum {
    FLURRY_ABSENT = 0,    /* the key or element was absent */
    FLURRY_PRESENT = 1,   /* the key or element was present */
    FLURRY_DONE = 2,      /* the call did what it is for */
    FLURRY_NO_MEMORY = 3, /* memory could not be allocated */
    FLURRY_NO_ROOM = 4    /* a buffer is too small */
};

/* ---- From numbers to numbers ---- */

/* The map: the address of what it owns. */
typedef struct flurry_words {
    void *at;
} flurry_words;

/* A key and its value. */
typedef struct flurry_word_pair {
    uint64_t key;
    uint64_t value;
} flurry_word_pair;

/* Makes an empty map in `words` and says FLURRY_DONE; or FLURRY_NO_MEMORY, and `words->at` is null. No map may be there before, since it
 * would be lost; what else is there does not matter. */
flurry_status flurry_words_new(flurry_words *words);

/* Frees the map and makes `words->at` null. Does nothing if it is null, as after flurry_words_free, and where flurry_words_new said
 * FLURRY_NO_MEMORY. */
void flurry_words_free(flurry_words *words);

/* The number of pairs. */
size_t flurry_words_len(flurry_words *words);

/* Whether the key is present. */
bool flurry_words_contains(flurry_words *words, uint64_t key);

/* Writes the key's value to `value`, and says FLURRY_PRESENT; or FLURRY_ABSENT, and writes nothing. */
flurry_status flurry_words_get(flurry_words *words, uint64_t key, uint64_t *value);

/* Inserts a pair. Says FLURRY_PRESENT if the key was present, and writes the value that it had to `old`; else FLURRY_ABSENT, and writes
 * nothing. Says FLURRY_NO_MEMORY if memory for the pair or for a first table cannot be allocated, or if the key is new and the map has as
 * many pairs as it can: nothing changed and nothing was written. */
flurry_status flurry_words_insert(flurry_words *words, uint64_t key, uint64_t value, uint64_t *old);

/* Inserts a pair if the key is absent, and says FLURRY_ABSENT. If the key is present, says FLURRY_PRESENT and writes its value to
 * `current`; nothing changed. FLURRY_NO_MEMORY as in flurry_words_insert. */
flurry_status flurry_words_try_insert(flurry_words *words, uint64_t key, uint64_t value, uint64_t *current);

/* Removes the key's pair, writes its value to `old`, and says FLURRY_PRESENT; or FLURRY_ABSENT, and writes nothing. */
flurry_status flurry_words_remove(flurry_words *words, uint64_t key, uint64_t *old);

/* Removes all pairs. The map keeps the memory of its table. */
void flurry_words_clear(flurry_words *words);

/* Makes room in the table for so many more pairs, and says FLURRY_DONE; or FLURRY_NO_MEMORY, if memory for that table cannot be allocated,
 * and nothing changed. A table has at most 2^30 bins, whatever is asked for. The pairs stay. An insertion still allocates for its pair. */
flurry_status flurry_words_reserve(flurry_words *words, size_t additional);

/* Writes all pairs, each once, in no order that is promised, to the first places of `pairs`, which has `len` places, and says FLURRY_DONE.
 * If the map has more than `len` pairs, says FLURRY_NO_ROOM and writes nothing. */
flurry_status flurry_words_pairs(flurry_words *words, flurry_word_pair *pairs, size_t len);

/* ---- From bytes to bytes ----
 *
 * A key or a value is any number of bytes, also none. The map keeps copies of those that are inserted. */

typedef struct flurry_bytes {
    void *at;
} flurry_bytes;

/* How many bytes a key and its value have. */
typedef struct flurry_byte_pair {
    size_t key;
    size_t value;
} flurry_byte_pair;

/* Makes an empty map in `bytes`, as flurry_words_new does. */
flurry_status flurry_bytes_new(flurry_bytes *bytes);

/* Frees the map, with its keys and values, as flurry_words_free does. */
void flurry_bytes_free(flurry_bytes *bytes);

/* The number of pairs. */
size_t flurry_bytes_len(flurry_bytes *bytes);

/* Whether the key is present. */
bool flurry_bytes_contains(flurry_bytes *bytes, const void *key, size_t key_len);

/* Copies the key's value to the beginning of `value`, which has room for `room` bytes, and as much of it as there is room for. Writes the
 * length of the whole value to `value_len`, and says FLURRY_PRESENT. Or says FLURRY_ABSENT, and writes nothing. */
flurry_status flurry_bytes_get(flurry_bytes *bytes, const void *key, size_t key_len, void *value, size_t room, size_t *value_len);

/* Inserts a pair. Says FLURRY_PRESENT if the key was present, and its value is replaced; else FLURRY_ABSENT. Says FLURRY_NO_MEMORY if
 * memory for the copies, the pair or a first table cannot be allocated, or if the key is new and the map has as many pairs as it can:
 * nothing changed. */
flurry_status flurry_bytes_insert(flurry_bytes *bytes, const void *key, size_t key_len, const void *value, size_t value_len);

/* Inserts a pair if the key is absent, and says FLURRY_ABSENT. If the key is present, says FLURRY_PRESENT; nothing changed.
 * FLURRY_NO_MEMORY as in flurry_bytes_insert. */
flurry_status flurry_bytes_try_insert(flurry_bytes *bytes, const void *key, size_t key_len, const void *value, size_t value_len);

/* Removes the key's pair, and says FLURRY_PRESENT; or FLURRY_ABSENT. */
flurry_status flurry_bytes_remove(flurry_bytes *bytes, const void *key, size_t key_len);

/* Removes all pairs. The map keeps the memory of its table. */
void flurry_bytes_clear(flurry_bytes *bytes);

/* As flurry_words_reserve. */
flurry_status flurry_bytes_reserve(flurry_bytes *bytes, size_t additional);

/* How many bytes all keys and values have together; SIZE_MAX if they have more. */
size_t flurry_bytes_size(flurry_bytes *bytes);

/* Writes all pairs, each once, in no order that is promised, and says FLURRY_DONE: to the first places of `pairs`, which has `len` places,
 * how many bytes each pair's key and value have; and to the beginning of `text`, which has room for `room` bytes, each pair's key and then
 * its value, pair after pair in the same order, without gaps. If `len` is less than flurry_bytes_len says, or `room` less than
 * flurry_bytes_size, says FLURRY_NO_ROOM and writes nothing. */
flurry_status flurry_bytes_pairs(flurry_bytes *bytes, flurry_byte_pair *pairs, size_t len, void *text, size_t room);

/* ---- Sets of numbers ---- */

/* The set: the address of what it owns. */
typedef struct flurry_word_set {
    void *at;
} flurry_word_set;

/* Makes an empty set in `set` and says FLURRY_DONE; or FLURRY_NO_MEMORY, and `set->at` is null. No set may be there before, since it would
 * be lost; what else is there does not matter. */
flurry_status flurry_word_set_new(flurry_word_set *set);

/* Frees the set and makes `set->at` null. Does nothing if it is null, as after flurry_word_set_free, and where flurry_word_set_new said
 * FLURRY_NO_MEMORY. */
void flurry_word_set_free(flurry_word_set *set);

/* The number of elements. */
size_t flurry_word_set_len(flurry_word_set *set);

/* Whether the element is present. */
bool flurry_word_set_contains(flurry_word_set *set, uint64_t element);

/* Inserts an element, and says FLURRY_ABSENT, since it was absent. If it was present, says FLURRY_PRESENT; nothing changed. Says
 * FLURRY_NO_MEMORY if memory for the element or for a first table cannot be allocated, or if the element is new and the set has as many
 * elements as it can: nothing changed. */
flurry_status flurry_word_set_insert(flurry_word_set *set, uint64_t element);

/* Removes the element, and says FLURRY_PRESENT; or FLURRY_ABSENT. */
flurry_status flurry_word_set_remove(flurry_word_set *set, uint64_t element);

/* Removes all elements. The set keeps the memory of its table. */
void flurry_word_set_clear(flurry_word_set *set);

/* Makes room in the table for so many more elements, and says FLURRY_DONE; or FLURRY_NO_MEMORY, if memory for that table cannot be
 * allocated, and nothing changed. A table has at most 2^30 bins, whatever is asked for. The elements stay. An insertion still allocates for
 * its element. */
flurry_status flurry_word_set_reserve(flurry_word_set *set, size_t additional);

/* Writes all elements, each once, in no order that is promised, to the first places of `elements`, which has `len` places, and says
 * FLURRY_DONE. If the set has more than `len` elements, says FLURRY_NO_ROOM and writes nothing. */
flurry_status flurry_word_set_elements(flurry_word_set *set, uint64_t *elements, size_t len);

/* ---- Sets of byte strings ----
 *
 * An element is any number of bytes, also none. The set keeps copies of those that are inserted. */

typedef struct flurry_byte_set {
    void *at;
} flurry_byte_set;

/* Makes an empty set in `set`, as flurry_word_set_new does. */
flurry_status flurry_byte_set_new(flurry_byte_set *set);

/* Frees the set, with its elements, as flurry_word_set_free does. */
void flurry_byte_set_free(flurry_byte_set *set);

/* The number of elements. */
size_t flurry_byte_set_len(flurry_byte_set *set);

/* Whether the element is present. */
bool flurry_byte_set_contains(flurry_byte_set *set, const void *element, size_t element_len);

/* Inserts an element, and says FLURRY_ABSENT, since it was absent. If it was present, says FLURRY_PRESENT; nothing changed. Says
 * FLURRY_NO_MEMORY if memory for the copy, the element or a first table cannot be allocated, or if the element is new and the set has as
 * many elements as it can: nothing changed. */
flurry_status flurry_byte_set_insert(flurry_byte_set *set, const void *element, size_t element_len);

/* Removes the element, and says FLURRY_PRESENT; or FLURRY_ABSENT. */
flurry_status flurry_byte_set_remove(flurry_byte_set *set, const void *element, size_t element_len);

/* Removes all elements. The set keeps the memory of its table. */
void flurry_byte_set_clear(flurry_byte_set *set);

/* As flurry_word_set_reserve. */
flurry_status flurry_byte_set_reserve(flurry_byte_set *set, size_t additional);

/* How many bytes all elements have together; SIZE_MAX if they have more. */
size_t flurry_byte_set_size(flurry_byte_set *set);

/* Writes all elements, each once, in no order that is promised, and says FLURRY_DONE: to the first places of `lengths`, which has `len`
 * places, how many bytes each element has; and to the beginning of `text`, which has room for `room` bytes, element after element in the
 * same order, without gaps. If `len` is less than flurry_byte_set_len says, or `room` less than flurry_byte_set_size, says FLURRY_NO_ROOM
 * and writes nothing. */
flurry_status flurry_byte_set_elements(flurry_byte_set *set, size_t *lengths, size_t len, void *text, size_t room);

#ifdef __cplusplus
}
#endif
#endif
