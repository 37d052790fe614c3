/* Arenas to make calls on. */
#ifndef ARENAS_H
#define ARENAS_H

#include "traces.h"

/* A live chunk's second word is this number and the words that were asked for; that of a free chunk is below it. */
#define LIVE_MARK 2147483648u

enum { FIRST_CHUNK = 2, HEADER = 2, LEAST_SPLIT = 8, MOST_CHUNKS = 4095 };

/* How the chunks of an arena lie. */
enum filling {
    /* Every chunk is live. */
    ALL_LIVE,
    /* Every chunk but the last, which is long enough to be split off. */
    GAP_AT_TOP,
    /* Live and free chunks by turns. The last gap holds more than any other. */
    EVERY_SECOND,
    /* What a random run of allocs, frees and reallocs leaves. */
    USUAL_USE
};

/* Makes an arena of so many words with this filling. */
void fill_arena(uint32_t *arena, size_t words, enum filling filling, enum crowd crowd);

/* Makes an arena in usual use; there are many of them, each with a number, and that of `fill_arena` is number 0. */
void fill_used(uint32_t *arena, size_t words, enum crowd crowd, uint32_t number);

/* Makes an arena of so many words that is `count` live chunks. */
void fill_with_live(uint32_t *arena, size_t words, size_t count);

/* The starts of all chunks of a sound arena, in rising order; answers how many there are. */
size_t chunks_of(const uint32_t *arena, size_t words, size_t starts[MOST_CHUNKS]);

#endif
