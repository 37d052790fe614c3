/* The turns that are timed, and the blocks and requests with which they bring their arena back. */
#include "turns.h"

#include <string.h>

#include "comparing.h"

static uint32_t make_size(const struct library *library, uint32_t *arena, size_t words, struct part *part)
{
    uint32_t answer[2];

    return library->size(arena, words, part->block, answer);
}

static uint32_t make_report(const struct library *library, uint32_t *arena, size_t words, struct part *part)
{
    uint32_t answer[4];

    (void)part;
    return library->report(arena, words, answer);
}

static uint32_t make_refused(const struct library *library, uint32_t *arena, size_t words, struct part *part)
{
    uint32_t answer[2];

    return library->alloc(arena, words, part->there, answer);
}

static uint32_t make_pair(const struct library *library, uint32_t *arena, size_t words, struct part *part)
{
    uint32_t answer[2];
    uint32_t codes = library->alloc(arena, words, part->there, answer);

    return codes | library->free(arena, words, answer[ZV_BLOCK]);
}

static uint32_t make_best_refused(const struct library *library, uint32_t *arena, size_t words, struct part *part)
{
    uint32_t answer[2];

    return library->alloc_best(arena, words, part->there, answer);
}

static uint32_t make_best_pair(const struct library *library, uint32_t *arena, size_t words, struct part *part)
{
    uint32_t answer[2];
    uint32_t codes = library->alloc_best(arena, words, part->there, answer);

    return codes | library->free(arena, words, answer[ZV_BLOCK]);
}

/* The rover is above all chunks, so that the search has to go round the whole list. */
static uint32_t make_next_refused(const struct library *library, uint32_t *arena, size_t words, struct part *part)
{
    struct zv_rover rover = {(uint32_t)words};
    uint32_t answer[2];

    return library->alloc_next(arena, words, &rover, part->there, answer);
}

static uint32_t make_next_pair(const struct library *library, uint32_t *arena, size_t words, struct part *part)
{
    struct zv_rover rover = {(uint32_t)words};
    uint32_t answer[2];
    uint32_t codes = library->alloc_next(arena, words, &rover, part->there, answer);

    return codes | library->free(arena, words, answer[ZV_BLOCK]);
}

/* One word less, and then all of them: the block stays as it is, and only the word of what was asked for changes. */
static uint32_t make_kept_resize(const struct library *library, uint32_t *arena, size_t words, struct part *part)
{
    uint32_t answer[2];
    uint32_t codes = library->resize(arena, words, part->block, part->there - 1, answer);

    return codes | library->resize(arena, words, part->block, part->back, answer);
}

static uint32_t make_resize(const struct library *library, uint32_t *arena, size_t words, struct part *part)
{
    uint32_t answer[2];
    uint32_t codes = library->resize(arena, words, part->block, part->there, answer);

    return codes | library->resize(arena, words, part->block, part->back, answer);
}

/* One word less, and then all of them, as above. */
static uint32_t make_kept_realloc(const struct library *library, uint32_t *arena, size_t words, struct part *part)
{
    uint32_t answer[2];
    uint32_t codes = library->realloc(arena, words, part->block, part->there - 1, answer);

    return codes | library->realloc(arena, words, part->block, part->back, answer);
}

static uint32_t make_realloc(const struct library *library, uint32_t *arena, size_t words, struct part *part)
{
    uint32_t answer[2];
    uint32_t codes = library->realloc(arena, words, part->block, part->there, answer);

    return codes | library->realloc(arena, words, part->block, part->back, answer);
}

/* A realloc moves a block only to make it longer; what brings it back is a relocate. */
static uint32_t make_move(const struct library *library, uint32_t *arena, size_t words, struct part *part)
{
    uint32_t answer[2];
    uint32_t codes = library->realloc(arena, words, part->block, part->there, answer);

    codes |= library->relocate(arena, words, answer[ZV_BLOCK], part->back, answer);
    part->block = answer[ZV_BLOCK];
    return codes;
}

static uint32_t make_relocate(const struct library *library, uint32_t *arena, size_t words, struct part *part)
{
    uint32_t answer[2];
    uint32_t codes = library->relocate(arena, words, part->block, part->there, answer);

    codes |= library->relocate(arena, words, answer[ZV_BLOCK], part->back, answer);
    part->block = answer[ZV_BLOCK];
    return codes;
}

static uint32_t make_whole_trace(const struct library *library, uint32_t *arena, size_t words, struct part *part)
{
    return make_trace(library, arena, words, part->trace);
}

/* To and fro is by as many words as are surely cut off again. */
const struct turn timed_turns[TURN_KINDS] = {
    {"size", make_size, 1, 0, ZV_DONE, 0, ANYTHING, 0},
    {"report", make_report, 1, 0, ZV_DONE, 0, ANYTHING, 0},
    {"alloc refused", make_refused, 1, 0, ZV_NO_ROOM, 0, ANYTHING, 0},
    {"alloc and free", make_pair, 2, 0, ZV_DONE, 1, ANYTHING, 0},
    {"alloc_best refused", make_best_refused, 1, 0, ZV_NO_ROOM, 0, ANYTHING, 0},
    {"alloc_best and free", make_best_pair, 2, 0, ZV_DONE, 1, ANYTHING, 0},
    {"alloc_next refused", make_next_refused, 1, 0, ZV_NO_ROOM, 0, ANYTHING, 0},
    {"alloc_next and free", make_next_pair, 2, 0, ZV_DONE, 1, ANYTHING, 0},
    {"resize, kept", make_kept_resize, 2, 0, ZV_DONE, 0, ANYTHING, 0},
    {"resize, to and fro", make_resize, 2, 0, ZV_DONE, 1, A_GAP, LEAST_SPLIT},
    {"realloc, kept", make_kept_realloc, 2, 0, ZV_DONE, 0, ANYTHING, 0},
    {"realloc, to and fro", make_realloc, 2, 0, ZV_DONE, 1, A_GAP, LEAST_SPLIT},
    {"move: realloc, back", make_move, 2, 2, ZV_DONE, 1, NO_GAP, 2},
    {"move: relocate", make_relocate, 2, 2, ZV_DONE, 1, NO_GAP, 0},
};

const struct turn *const size_turn = &timed_turns[0];

const struct turn trace_turn = {"trace", make_whole_trace, 0, 0, ZV_DONE, 0, ANYTHING, 0};

/* The request of an alloc: all of the largest gap; most of it where smaller gaps would hold less; a usual one. */
static uint32_t alloc_request(enum filling filling, uint32_t largest)
{
    switch (filling) {
    case EVERY_SECOND:
        return largest - LEAST_SPLIT;
    case USUAL_USE:
        return 6;
    default:
        return largest;
    }
}

/* Whether the turn is a new block, granted by one of the fits and freed again. */
static int is_pair(const struct turn *turn)
{
    return turn->make == make_pair || turn->make == make_best_pair || turn->make == make_next_pair;
}

/* Whether this turn, when it was made a few times with this part, moves what it should and brings the arena back. */
static int comes_back(const struct turn *turn, uint32_t *arena, size_t words, struct part *part)
{
    static uint32_t before[ZV_GREATEST_WORDS];
    uint32_t block;
    int i;

    for (i = 0; i < 3; i++) {
        if (turn->make(&plain, arena, words, part) != turn->codes)
            return 0;
    }
    block = part->block;
    memcpy(before, arena, words * sizeof *arena);
    begin_comparing(arena, words, turn->name);
    return turn->make(&both, arena, words, part) == turn->codes && seen.moves == turn->moves && part->block == block
           && memcmp(arena, before, words * sizeof *arena) == 0;
}

/* Whether the chunk that starts at starts[i] is live and has above it what the turn is for. */
static int is_candidate(const struct turn *turn, const uint32_t *arena, const size_t *starts, size_t i, size_t count)
{
    int gap_above = i + 1 < count && arena[starts[i + 1] + 1] < LIVE_MARK;

    if (arena[starts[i] + 1] < LIVE_MARK)
        return 0;
    return turn->above == ANYTHING || gap_above == (turn->above == A_GAP);
}

int choose_part(const struct turn *turn, uint32_t *arena, size_t words, enum filling filling, struct part *part)
{
    static uint32_t tried[ZV_GREATEST_WORDS];
    static size_t starts[MOST_CHUNKS];
    size_t count = chunks_of(arena, words, starts);
    uint32_t report[4];
    size_t i;

    plain.report(arena, words, report);
    for (i = count; i-- > 0;) {
        uint32_t granted = arena[starts[i]] - HEADER;

        if (!is_candidate(turn, arena, starts, i, count))
            continue;
        *part = (struct part){.block = (uint32_t)starts[i] + HEADER, .there = granted + turn->more, .back = granted};
        if (is_pair(turn))
            part->there = alloc_request(filling, report[ZV_LARGEST]);
        if (turn->codes == ZV_NO_ROOM)
            part->there = report[ZV_LARGEST] + 1;
        memcpy(tried, arena, words * sizeof *arena);
        if (comes_back(turn, tried, words, part)) {
            memcpy(arena, tried, words * sizeof *arena);
            return 1;
        }
    }
    return 0;
}
