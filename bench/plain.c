/*
 * The allocator in plain C, written for speed: one loop for the check walk, then one for the search.
 *
 * The rules are those of docs/RULES.md. A chunk is named by the word where it starts. A link is the word that names a
 * free chunk: the list's first word, or the second word of the free chunk before.
 */
#include "plain.h"

#include <string.h>

#include "plain_walk.h"

/* A chunk, and the link that names it if it is free, or the first free chunk behind it if it is live. */
struct place {
    size_t link;
    size_t chunk;
};

/* A live chunk's words together with those of a free chunk right after it, and the next free chunk behind these. */
struct room {
    size_t size;
    uint32_t next;
};

/* The reason for which a request of n words is refused, or ZV_DONE. */
static uint32_t check_request(size_t words, uint32_t n)
{
    if (n == 0)
        return ZV_ZERO;
    return n > words - 4 ? ZV_TOO_LARGE : ZV_DONE;
}

static size_t need_of(uint32_t n)
{
    return (size_t)n + n % 2 + HEADER;
}

/* Finds the live chunk of block b in a sound arena, or says ZV_NOT_A_BLOCK. */
static inline uint32_t find(const uint32_t *arena, size_t words, uint32_t b, struct place *place)
{
    size_t wanted = (size_t)b - HEADER;
    size_t chunk = FIRST_CHUNK;
    size_t link = LIST_WORD;

    if (b < FIRST_CHUNK + HEADER || b >= words)
        return ZV_NOT_A_BLOCK;
    while (chunk < wanted) {
        link = arena[chunk + 1] >= LIVE_MARK ? link : chunk + 1;
        chunk += arena[chunk];
    }
    place->link = link;
    place->chunk = chunk;
    return chunk == wanted && arena[chunk + 1] >= LIVE_MARK ? ZV_DONE : ZV_NOT_A_BLOCK;
}

/* The checks of a call on a block that is granted anew, in the order of their reasons; finds the block's chunk. */
static inline uint32_t check_block(const uint32_t *arena, size_t words, uint32_t b, uint32_t n, struct place *place)
{
    uint32_t code = check_arena(arena, words);

    if (code == ZV_DONE)
        code = find(arena, words, b, place);
    return code == ZV_DONE ? check_request(words, n) : code;
}

/* Finds the lowest gap of at least so many words along the links, or says ZV_NO_ROOM. */
static inline uint32_t first_fit(const uint32_t *arena, size_t need, struct place *place)
{
    size_t link = LIST_WORD;
    size_t gap = arena[link];

    while (gap != 0 && arena[gap] < need) {
        link = gap + 1;
        gap = arena[link];
    }
    place->link = link;
    place->chunk = gap;
    return gap == 0 ? ZV_NO_ROOM : ZV_DONE;
}

/* Finds the smallest gap of at least so many words, the lowest of equals; a gap of just so many ends the search. */
static inline uint32_t best_fit(const uint32_t *arena, size_t need, struct place *place)
{
    struct place best = {LIST_WORD, 0};
    size_t least = ZV_GREATEST_WORDS;
    size_t link = LIST_WORD;
    size_t gap;

    for (gap = arena[link]; gap != 0 && least != need; gap = arena[link]) {
        if (arena[gap] >= need && arena[gap] < least) {
            least = arena[gap];
            best = (struct place){link, gap};
        }
        link = gap + 1;
    }
    *place = best;
    return best.chunk == 0 ? ZV_NO_ROOM : ZV_DONE;
}

/* Finds the lowest gap of at least so many words that starts at the rover or above, or else the lowest of all these. */
static inline uint32_t next_fit(const uint32_t *arena, size_t need, uint32_t rover, struct place *place)
{
    struct place lowest = {LIST_WORD, 0};
    size_t link = LIST_WORD;
    size_t gap;

    for (gap = arena[link]; gap != 0 && (gap < rover || arena[gap] < need); gap = arena[link]) {
        if (lowest.chunk == 0 && arena[gap] >= need)
            lowest = (struct place){link, gap};
        link = gap + 1;
    }
    *place = gap == 0 ? lowest : (struct place){link, gap};
    return place->chunk == 0 ? ZV_NO_ROOM : ZV_DONE;
}

static uint32_t grant(uint32_t answer[2], size_t chunk, size_t size)
{
    answer[ZV_BLOCK] = (uint32_t)(chunk + HEADER);
    answer[ZV_GRANTED] = (uint32_t)(size - HEADER);
    return ZV_DONE;
}

static uint32_t refuse(uint32_t answer[2], uint32_t code)
{
    answer[ZV_BLOCK] = 0;
    answer[ZV_GRANTED] = 0;
    return code;
}

/* Makes the last words of a gap a live chunk, or all of them where too few would be over; answers where it starts. */
static size_t take(uint32_t *arena, struct place gap, uint32_t n)
{
    size_t need = need_of(n);
    size_t rest = arena[gap.chunk] - need;
    size_t chunk = gap.chunk + rest;

    if (rest < LEAST_SPLIT) {
        arena[gap.link] = arena[gap.chunk + 1];
        arena[gap.chunk + 1] = LIVE_MARK + n;
        return gap.chunk;
    }
    arena[gap.chunk] = (uint32_t)rest;
    arena[chunk] = (uint32_t)need;
    arena[chunk + 1] = LIVE_MARK + n;
    return chunk;
}

static struct room room_of(const uint32_t *arena, struct place place)
{
    struct room room = {arena[place.chunk], arena[place.link]};

    if (room.next == place.chunk + room.size) {
        size_t gap = room.next;

        room.size += arena[gap];
        room.next = arena[gap + 1];
    }
    return room;
}

/* Frees a live chunk and merges it with its free neighbours. Word 0, read as a gap's size, would end at no chunk. */
static void release(uint32_t *arena, struct place place)
{
    struct room room = room_of(arena, place);
    size_t left = place.link - 1;

    if (left + arena[left] == place.chunk) {
        arena[left] += (uint32_t)room.size;
        arena[left + 1] = room.next;
        return;
    }
    arena[place.link] = (uint32_t)place.chunk;
    arena[place.chunk] = (uint32_t)room.size;
    arena[place.chunk + 1] = room.next;
}

/* How much of its room a block keeps: a gap right above it takes all that is over when it shrinks. */
static size_t kept_of(size_t need, size_t size, size_t room)
{
    if (need <= size && size < room)
        return need;
    return room - need < LEAST_SPLIT ? room : need;
}

/* The block keeps the first words of its room, and what is left of it is a gap. */
static inline void trim(uint32_t *arena, struct place place, size_t keep, struct room room)
{
    size_t rest = place.chunk + keep;

    arena[place.chunk] = (uint32_t)keep;
    if (keep == room.size) {
        arena[place.link] = room.next;
        return;
    }
    arena[place.link] = (uint32_t)rest;
    arena[rest] = (uint32_t)(room.size - keep);
    arena[rest + 1] = room.next;
}

/* Grants a block anew where it stands, or says ZV_WOULD_MOVE. */
static inline uint32_t resize_at(uint32_t *arena, struct place place, uint32_t n, uint32_t answer[2])
{
    struct room room = room_of(arena, place);
    size_t size = arena[place.chunk];
    size_t need = need_of(n);
    size_t keep;

    if (room.size < need)
        return refuse(answer, ZV_WOULD_MOVE);
    keep = kept_of(need, size, room.size);
    if (keep != size)
        trim(arena, place, keep, room);
    arena[place.chunk + 1] = LIVE_MARK + n;
    return grant(answer, place.chunk, keep);
}

/* Grants a block anew elsewhere, with as many of its words as both have, or says ZV_NO_ROOM. */
static inline uint32_t relocate_at(uint32_t *arena, struct place place, uint32_t n, uint32_t answer[2])
{
    struct place gap;
    size_t old_size = arena[place.chunk];
    size_t chunk, size;

    if (first_fit(arena, need_of(n), &gap) != ZV_DONE)
        return refuse(answer, ZV_NO_ROOM);
    chunk = take(arena, gap, n);
    size = arena[chunk];
    memcpy(arena + chunk + HEADER, arena + place.chunk + HEADER,
           ((size < old_size ? size : old_size) - HEADER) * sizeof *arena);
    if (chunk + 1 == place.link)
        place.link = gap.link;
    release(arena, place);
    return grant(answer, chunk, size);
}

uint32_t plain_start(uint32_t *arena, size_t words)
{
    if (!is_lawful(words))
        return ZV_LENGTH;
    arena[0] = (uint32_t)words;
    arena[LIST_WORD] = FIRST_CHUNK;
    arena[FIRST_CHUNK] = (uint32_t)words - FIRST_CHUNK;
    arena[FIRST_CHUNK + 1] = 0;
    return ZV_DONE;
}

/* The checks of a call for a new block, in the order of their reasons. */
static inline uint32_t check_new(const uint32_t *arena, size_t words, uint32_t n)
{
    uint32_t code = check_arena(arena, words);

    return code == ZV_DONE ? check_request(words, n) : code;
}

/* Grants a new block in the gap that was found, or refuses it with the code. */
static inline uint32_t settle(uint32_t *arena, uint32_t n, uint32_t code, struct place gap, uint32_t answer[2])
{
    size_t chunk;

    if (code != ZV_DONE)
        return refuse(answer, code);
    chunk = take(arena, gap, n);
    return grant(answer, chunk, arena[chunk]);
}

uint32_t plain_alloc(uint32_t *arena, size_t words, uint32_t n, uint32_t answer[2])
{
    uint32_t code = check_new(arena, words, n);
    struct place gap = {0, 0};

    if (code == ZV_DONE)
        code = first_fit(arena, need_of(n), &gap);
    return settle(arena, n, code, gap, answer);
}

uint32_t plain_alloc_best(uint32_t *arena, size_t words, uint32_t n, uint32_t answer[2])
{
    uint32_t code = check_new(arena, words, n);
    struct place gap = {0, 0};

    if (code == ZV_DONE)
        code = best_fit(arena, need_of(n), &gap);
    return settle(arena, n, code, gap, answer);
}

uint32_t plain_alloc_next(uint32_t *arena, size_t words, struct zv_rover *rover, uint32_t n, uint32_t answer[2])
{
    uint32_t code = check_new(arena, words, n);
    struct place gap = {0, 0};

    if (code == ZV_DONE)
        code = next_fit(arena, need_of(n), rover->at, &gap);
    if (code == ZV_DONE)
        rover->at = (uint32_t)gap.chunk;
    return settle(arena, n, code, gap, answer);
}

uint32_t plain_free(uint32_t *arena, size_t words, uint32_t b)
{
    uint32_t code = check_arena(arena, words);
    struct place place;

    if (code == ZV_DONE)
        code = find(arena, words, b, &place);
    if (code == ZV_DONE)
        release(arena, place);
    return code;
}

uint32_t plain_resize(uint32_t *arena, size_t words, uint32_t b, uint32_t n, uint32_t answer[2])
{
    struct place place;
    uint32_t code = check_block(arena, words, b, n, &place);

    if (code != ZV_DONE)
        return refuse(answer, code);
    return resize_at(arena, place, n, answer);
}

uint32_t plain_relocate(uint32_t *arena, size_t words, uint32_t b, uint32_t n, uint32_t answer[2])
{
    struct place place;
    uint32_t code = check_block(arena, words, b, n, &place);

    if (code != ZV_DONE)
        return refuse(answer, code);
    return relocate_at(arena, place, n, answer);
}

uint32_t plain_realloc(uint32_t *arena, size_t words, uint32_t b, uint32_t n, uint32_t answer[2])
{
    struct place place;
    uint32_t code = check_block(arena, words, b, n, &place);

    if (code != ZV_DONE)
        return refuse(answer, code);
    code = resize_at(arena, place, n, answer);
    return code == ZV_WOULD_MOVE ? relocate_at(arena, place, n, answer) : code;
}

uint32_t plain_size(const uint32_t *arena, size_t words, uint32_t b, uint32_t answer[2])
{
    uint32_t code = check_arena(arena, words);
    struct place place;

    if (code == ZV_DONE)
        code = find(arena, words, b, &place);
    if (code != ZV_DONE)
        return refuse(answer, code);
    answer[ZV_ASKED] = arena[place.chunk + 1] - LIVE_MARK;
    answer[ZV_GRANTED] = arena[place.chunk] - HEADER;
    return ZV_DONE;
}

uint32_t plain_report(const uint32_t *arena, size_t words, uint32_t answer[4])
{
    struct tally tally = {0, 0, 0, 0};
    uint32_t code = walk(arena, words, &tally);

    if (code != ZV_DONE)
        tally = (struct tally){0, 0, 0, 0};
    answer[ZV_FREE_WORDS] = tally.free_words;
    answer[ZV_LARGEST] = tally.longest == 0 ? 0 : tally.longest - HEADER;
    answer[ZV_LIVE_BLOCKS] = tally.live;
    answer[ZV_FREE_CHUNKS] = tally.free;
    return code;
}
