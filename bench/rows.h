/* The rows of the tables: what is set up, compared and then timed for each. */
#ifndef ROWS_H
#define ROWS_H

#include "measuring.h"

/* What was measured. Times are of one call, in nanoseconds; `chunks` is 0 where the row could not be made. */
struct row {
    size_t words;
    size_t chunks;
    struct spread ratio;
    double ours;
    double plain;
    /* Traces: calls, the percentage of them that moved a block, and of plain C's time what the loop by itself took. */
    unsigned long calls;
    double moves;
    double loop;
    /* Size calls: the times over that of plain C with 16 chunks. */
    double ours_relative;
    double plain_relative;
};

/* The library in the rows under the name of ours. */
extern const struct library *measured;

/* A turn on an arena of this kind; one that needs a gap gets a single one, at the top, where all would be live. */
struct row turn_row(const struct turn *turn, enum filling filling, enum crowd crowd, size_t words, double seconds);

/* A whole trace. The time of the loop around its calls is taken off both sides. */
struct row trace_row(const struct mix *mix, uint32_t seed, size_t words, double seconds);

/* The size of the last block of an arena of `chunks` live ones. */
struct row size_row(size_t words, size_t chunks, double seconds);

#endif
