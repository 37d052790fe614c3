/* The check walk in plain C. It is in a header so that the compiler can put it into each call. */
#ifndef PLAIN_WALK_H
#define PLAIN_WALK_H

#include "zandervlecht.h"

/* A live chunk's second word is this number and the words that were asked for; that of a free chunk is below it. */
#define LIVE_MARK 2147483648u

/* LEAST_CHUNK is the least size that a chunk may have, and LEAST_SPLIT the least that is split off from another. */
enum { LIST_WORD = 1, FIRST_CHUNK = 2, HEADER = 2, LEAST_CHUNK = 4, LEAST_SPLIT = 8 };

/* What the report counts. */
struct tally {
    uint32_t free_words;
    uint32_t longest;
    uint32_t live;
    uint32_t free;
};

static int is_lawful(size_t words)
{
    return words % 2 == 0 && words >= ZV_LEAST_WORDS && words <= ZV_GREATEST_WORDS;
}

/*
 * The check walk, which counts on its way; where nobody asks for the counts the compiler leaves them out. A free chunk
 * right after a free one is told by the link between them: it would name the end of the chunk that holds it.
 */
static inline uint32_t walk(const uint32_t *arena, size_t words, struct tally *tally)
{
    size_t chunk = FIRST_CHUNK;
    size_t wanted;

    if (!is_lawful(words))
        return ZV_LENGTH;
    if (arena[0] != words)
        return ZV_DAMAGED;
    wanted = arena[LIST_WORD];
    while (chunk < words) {
        size_t size = arena[chunk];
        uint32_t second = arena[chunk + 1];

        if (size % 2 != 0 || size < LEAST_CHUNK || size > words - chunk)
            return ZV_DAMAGED;
        if (second >= LIVE_MARK) {
            uint32_t asked = second - LIVE_MARK;

            if (asked == 0 || asked > size - HEADER)
                return ZV_DAMAGED;
            tally->live++;
        } else {
            if (wanted != chunk || second == chunk + size)
                return ZV_DAMAGED;
            wanted = second;
            tally->free++;
            tally->free_words += (uint32_t)size;
            tally->longest = tally->longest < size ? (uint32_t)size : tally->longest;
        }
        chunk += size;
    }
    return wanted == 0 ? ZV_DONE : ZV_DAMAGED;
}

/* The reason for which every call but start refuses the arena, or ZV_DONE. */
static uint32_t check_arena(const uint32_t *arena, size_t words)
{
    struct tally unused = {0, 0, 0, 0};

    return walk(arena, words, &unused);
}

#endif
