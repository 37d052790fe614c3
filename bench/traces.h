/* Random runs of calls, the same in every run of the program. */
#ifndef TRACES_H
#define TRACES_H

#include "library.h"

enum { MOST_BLOCKS = 4095, TRACE_STEPS = 24000 };

/* How many blocks an arena has: some large ones, or as many as fit. */
enum crowd { FEW, MANY };

enum call { START, ALLOC, FREE, RESIZE, RELOCATE, REALLOC, SIZE, REPORT, CALL_KINDS };

/* What a user asks for, in percent. Allocs and frees are one share: which of them it is depends on the room left. */
struct mix {
    const char *name;
    uint32_t share[CALL_KINDS];
    /* Of the requests for a block that is held already, how many are for more words than it has. */
    uint32_t longer;
    /* Calls with a block that is none, or a request that is not lawful. */
    uint32_t wrong;
};

extern const struct mix few_moves;
extern const struct mix many_moves;

/* A call and its numbers; those that it does not take are ignored. */
struct step {
    enum call call;
    uint32_t block;
    uint32_t n;
};

struct trace {
    struct step steps[TRACE_STEPS];
};

/* Makes one call. */
uint32_t make_step(const struct library *library, uint32_t *arena, size_t words, const struct step *step,
                   uint32_t answer[4]);

/* Makes every call of a trace; it begins with a start, so the words that the arena held before do not matter. */
uint32_t make_trace(const struct library *library, uint32_t *arena, size_t words, const struct trace *trace);

/* Writes a trace for an arena of so many words; the mix and the seed settle it. It is too long to be learnt by heart by
   the processor, which foretells branches that it has seen before. */
void record_trace(struct trace *trace, size_t words, const struct mix *mix, uint32_t seed);

/* Leaves an arena as the logger of this number does after a while: most requests short, some long, two thirds of the
   words taken. */
void leave_used(uint32_t *arena, size_t words, enum crowd crowd, uint32_t number);

#endif
