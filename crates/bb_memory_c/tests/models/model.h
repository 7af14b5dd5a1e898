// The parts that the models of this folder share. A model is written from the words of bb_memory.h
// only: it keeps what the words say about a handle, and compares each result of the library with
// that. Sums have 128 bits. The places are only numbers: there is no memory at them.
#ifndef MODEL_H
#define MODEL_H

#define BB_PLACES_ARE_NUMBERS
#include <stdbool.h>
#include <stdint.h>
#include <stdio.h>
#include <stdlib.h>
#include <string.h>

#include "bb_memory.h"

__extension__ typedef unsigned __int128 wide;

// How often the library returned each code.
static uint64_t seen[BB_LAST_CODE + 1];
static uint64_t seed = 1;
static uint64_t rounds_done;
static const char *model_name = "";

// Returns the next number of the generator: splitmix64.
static inline uint64_t next(void) {
    uint64_t number = seed += UINT64_C(0x9e3779b97f4a7c15);
    number = (number ^ (number >> 30)) * UINT64_C(0xbf58476d1ce4e5b9);
    number = (number ^ (number >> 27)) * UINT64_C(0x94d049bb133111eb);
    return number ^ (number >> 31);
}

// Returns a number below `bound`, which isn't 0.
static inline uint32_t below(uint32_t bound) {
    return (uint32_t)(next() % bound);
}

// Returns a number that is often at an edge: near 0, near a power of two, near PTRDIFF_MAX, or near
// SIZE_MAX.
static inline size_t edge(void) {
    size_t by = below(5);
    switch (below(8)) {
    case 0: return by;
    case 1: return (size_t)PTRDIFF_MAX - 2 + by;
    case 2: return SIZE_MAX - by;
    case 3: return ((size_t)1 << below(64)) - 2 + by;
    case 4: return (size_t)next();
    case 5: return (size_t)1 << below(8);
    default: return below(300);
    }
}

// Returns an alignment: mostly a small power of two.
static inline size_t edge_align(void) {
    return below(8) == 0 ? edge() : (size_t)1 << below(8);
}

// Ends the program if the library's result is another one.
static inline void expect_at(bool holds, const char *what, int line) {
    if (!holds) {
        fprintf(stderr, "%s: round %llu, line %d: not so: %s\n", model_name,
                (unsigned long long)rounds_done, line, what);
        exit(1);
    }
}

#define EXPECT(holds) expect_at(holds, #holds, __LINE__)

// Returns whether a code is the expected one.
static inline bool is_code(uint32_t code, uint32_t expected) {
    seen[expected]++;
    return code == expected;
}

// Returns whether a chunk was refused with this code: its place is 0.
static inline bool is_refused(bb_chunk chunk, uint32_t code) {
    return is_code(chunk.code, code) && chunk.place == 0;
}

// Returns whether this chunk was given.
static inline bool is_given(bb_chunk chunk, wide place) {
    return is_code(chunk.code, BB_OK) && chunk.place == place;
}

// Returns whether a number was refused with this code: it is 0.
static inline bool has_none(bb_number number, uint32_t code) {
    return is_code(number.code, code) && number.number == 0;
}

// Returns whether this number was returned.
static inline bool is_number(bb_number number, wide expected) {
    return is_code(number.code, BB_OK) && number.number == expected;
}

// Returns the least multiple of `align` that is at least `number`. `align` isn't 0.
static inline wide rounded_up(wide number, wide align) {
    return (number + align - 1) / align * align;
}

// Returns whether these are a valid layout.
static inline bool is_layout(size_t size, size_t align) {
    if (align == 0 || (align & (align - 1)) != 0)
        return false;
    return rounded_up(size, align) <= PTRDIFF_MAX;
}

// Returns whether this can be a region.
static inline bool is_region(size_t start, size_t size) {
    return start != 0 && (wide)start + size <= SIZE_MAX;
}

// The buckets of a region.
typedef struct {
    size_t bucket_size;
    size_t align;
    size_t start;
    size_t size;
    wide first;
    wide stride;
    wide count;
} cut;

// Returns what `init` of a pool with these parameters returns, for an empty handle and as long as
// `malloc` doesn't fail, and how the region is cut then.
static inline uint32_t cut_into(size_t bucket_size, size_t align, size_t start, size_t size,
                                bool has_parties, cut *into) {
    if (!is_layout(bucket_size, align))
        return BB_INVALID_LAYOUT;
    into->bucket_size = bucket_size;
    into->align = align;
    into->start = start;
    into->size = size;
    into->first = rounded_up(start, align);
    into->stride = rounded_up(bucket_size, align);
    if (!is_region(start, size) || into->first > SIZE_MAX || bucket_size == 0 || !has_parties)
        return BB_INVALID_ARGUMENT;
    into->count = 0;
    if (into->first < (wide)start + size)
        into->count = ((wide)start + size - into->first) / into->stride;
    if (into->count >= UINT32_MAX)
        return BB_INVALID_ARGUMENT;
    return into->count == 0 ? BB_NO_BUCKET : BB_OK;
}

// Returns the number of the bucket that begins at `place`, or -1.
static inline int64_t number_at(const cut *of, size_t place) {
    if (place < of->first || (place - of->first) % of->stride != 0)
        return -1;
    wide number = (place - of->first) / of->stride;
    return number < of->count ? (int64_t)number : -1;
}

// Returns a place that is often one of a bucket.
static inline size_t some_place(const cut *of) {
    size_t place = (size_t)(of->first + of->stride * below((uint32_t)of->count + 1));
    if (below(8) == 0)
        place += below(3) - (size_t)1;
    return below(16) == 0 ? edge() : place;
}

// Runs `a_round` a million times, or as often as the first argument says, from the seed that is the
// second one. Each of the kind's codes has to come, so that each is compared.
static inline int run_model(const char *name, void (*a_round)(void), const uint32_t *codes,
                            size_t count, int argc, char **argv) {
    uint64_t rounds = argc > 1 ? strtoull(argv[1], NULL, 10) : 1000000;
    model_name = name;
    seed = argc > 2 ? strtoull(argv[2], NULL, 10) : 1;
    for (rounds_done = 0; rounds_done < rounds; rounds_done++)
        a_round();
    for (size_t at = 0; at < count; at++)
        if (seen[codes[at]] == 0) {
            fprintf(stderr, "%s: %s never came\n", name, bb_name(codes[at]));
            return 1;
        }
    printf("%s: the library agrees with the model on %llu rounds\n", name,
           (unsigned long long)rounds);
    return 0;
}

#endif
