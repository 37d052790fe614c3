/* Turns: some calls that leave an arena as they found it, so that they can be made, and timed, again and again. */
#ifndef TURNS_H
#define TURNS_H

#include "arenas.h"
#include "library.h"
#include "traces.h"

/* What a turn asks for: a block, a request, and the one that brings the block back; a trace; an album; requests. */
struct part {
    uint32_t block;
    uint32_t there;
    uint32_t back;
    const struct trace *trace;
    struct album *album;
    struct zv_request *requests;
};

/* What must stand right above the block of a turn. */
enum above { ANYTHING, A_GAP, NO_GAP };

struct turn {
    const char *name;
    /* Makes the calls; answers their codes, joined bit by bit. */
    uint32_t (*make)(const struct library *library, uint32_t *arena, size_t words, struct part *part);
    /* How many calls these are, and how many of them move a block. */
    unsigned calls;
    unsigned moves;
    /* The codes that they have to answer. */
    uint32_t codes;
    /* Whether an arena without a gap will not do. */
    int needs_gap;
    /* Which blocks the turn is for, and how many words more than it has the first request is for. */
    enum above above;
    uint32_t more;
};

enum { TURN_KINDS = 14 };

/* The turns that are timed. */
extern const struct turn timed_turns[TURN_KINDS];

/* One size call, of which the sections on many chunks and on many words are made. */
extern const struct turn *const size_turn;

/* A turn that is a whole trace. */
extern const struct turn trace_turn;

/* Settles a part for a turn on this arena, with the highest block that will do. The arena is then the one that each
   turn brings back. Answers 0 where there is no such part. */
int choose_part(const struct turn *turn, uint32_t *arena, size_t words, enum filling filling, struct part *part);

#endif
