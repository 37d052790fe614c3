/*
 * A lab to start from: forty requests of an experiment are a table, and one call of zv_batch makes them all.
 * To build it and run it: bash examples/run experiment
 */
#include <inttypes.h>
#include <stdio.h>
#include <stdlib.h>

#include "zandervlecht.h"

/* The words of the arena. */
enum { WORDS = 128 };

/* All that the blocks have. */
static uint32_t arena[WORDS];

/*
 * The lab: what each request asks. It names blocks before they are granted, which is no guess: the rules leave no
 * choice, so on a fresh arena of so many words the same requests always get the same answers. Behind a request stands
 * the number of the block that it is granted, or the reason why it is refused.
 */
static struct zv_request lab[] = {
    /* The motor's log lasts the whole lab; a light gate counts the turns, and a trace takes the voltage. */
    {.kind = ZV_ALLOC, .n = 12},                /* 116: the motor's log */
    {.kind = ZV_ALLOC, .n = 7},                 /* 106: the light gate, granted 8 words since lengths are even */
    {.kind = ZV_ALLOC, .n = 20},                /* 84: the first trace */
    {.kind = ZV_SIZE, .b = 106},
    {.kind = ZV_ALLOC, .n = 0},                 /* Zero: a length that nobody had filled in */

    /* The trace has to be longer. The light gate lies right above it, so it cannot stay; moved, it has room to grow. */
    {.kind = ZV_RESIZE, .b = 84, .n = 28},      /* WouldMove */
    {.kind = ZV_REALLOC, .b = 84, .n = 28},     /* 54: the first trace, elsewhere */
    {.kind = ZV_SIZE, .b = 84},                 /* NotABlock: its old number is good for nothing now */
    {.kind = ZV_RESIZE, .b = 54, .n = 36},      /* 54: it grows into the gap that it left behind */

    /* A thermometer comes to it. A second trace finds no room until the first is read out and freed. */
    {.kind = ZV_ALLOC, .n = 16},                /* 36: the thermometer */
    {.kind = ZV_ALLOC, .n = 512},               /* TooLarge: bytes were counted, not words */
    {.kind = ZV_ALLOC, .n = 40},                /* NoRoom: enough words are free, but not side by side */
    {.kind = ZV_FREE, .b = 54},
    {.kind = ZV_FREE, .b = 54},                 /* NotABlock: freed twice */
    {.kind = ZV_ALLOC, .n = 40},                /* 64: the second trace */
    {.kind = ZV_SIZE, .b = 64},

    /* The logs grow: the thermometer's where it stands, the motor's elsewhere. The light gate is done. */
    {.kind = ZV_RESIZE, .b = 36, .n = 20},      /* 36: granted 26 words, since six over are too few to be a gap */
    {.kind = ZV_REALLOC, .b = 116, .n = 20},    /* 14: the motor's log */
    {.kind = ZV_FREE, .b = 106},

    /* The second trace takes all that lies above it, is cut to what matters, and makes way for the third. */
    {.kind = ZV_RESIZE, .b = 64, .n = 64},      /* 64 */
    {.kind = ZV_RESIZE, .b = 64, .n = 24},      /* 64 */
    {.kind = ZV_RELOCATE, .b = 64, .n = 24},    /* 104: the second trace */
    {.kind = ZV_ALLOC, .n = 36},                /* 64: the third trace */
    {.kind = ZV_ALLOC, .n = 6},                 /* 4: a table of results */
    {.kind = ZV_SIZE, .b = 4},

    /* Now the arena is full: there is room for no block, nor for a move, since a block is copied before it is freed. */
    {.kind = ZV_ALLOC, .n = 2},                 /* NoRoom */
    {.kind = ZV_RELOCATE, .b = 14, .n = 12},    /* NoRoom */

    /* Room is made: the third trace is cut, the motor's log goes to the gap above it, the thermometer is done. */
    {.kind = ZV_RESIZE, .b = 64, .n = 16},      /* 64 */
    {.kind = ZV_RELOCATE, .b = 14, .n = 12},    /* 90: the motor's log */
    {.kind = ZV_FREE, .b = 36},
    {.kind = ZV_ALLOC, .n = 40},                /* 22: the fourth trace; eight words over stay a gap */
    {.kind = ZV_REALLOC, .b = 4, .n = 10},      /* 4: the table grows where it stands, by all of that gap */

    /* The fourth trace can grow neither where it stands nor elsewhere, until the third is freed. */
    {.kind = ZV_RESIZE, .b = 22, .n = 56},      /* WouldMove */
    {.kind = ZV_REALLOC, .b = 22, .n = 56},     /* NoRoom */
    {.kind = ZV_FREE, .b = 64},
    {.kind = ZV_REALLOC, .b = 22, .n = 56},     /* 22 */

    /* All traces are read out and freed; the table is kept, and the motor's log goes on. */
    {.kind = ZV_FREE, .b = 104},
    {.kind = ZV_SIZE, .b = 22},
    {.kind = ZV_FREE, .b = 22},
    {.kind = ZV_REALLOC, .b = 90, .n = 30},     /* 90: the motor's log */
};

enum { REQUESTS = sizeof lab / sizeof lab[0] };

/* What the kinds are called, by their numbers. */
static const char *const kinds[] = {
    [ZV_ALLOC] = "alloc", [ZV_FREE] = "free", [ZV_REALLOC] = "realloc", [ZV_RESIZE] = "resize",
    [ZV_RELOCATE] = "relocate", [ZV_SIZE] = "size",
};

/* What a kind is called, or unknown for a number that is none of them. */
static const char *name_of(uint32_t kind)
{
    return kind < sizeof kinds / sizeof kinds[0] && kinds[kind] ? kinds[kind] : "unknown";
}

/* Prints a record, what is asked and what is answered, in columns with spaces between them, for people and scripts. */
static void show(int number, const struct zv_request *record)
{
    printf("%7d  %-8s %5" PRIu32 " %4" PRIu32, number, name_of(record->kind), record->b, record->n);
    printf(" %5" PRIu32 " %6" PRIu32 " %8" PRIu32 "\n", record->code, record->block, record->granted);
}

int main(void)
{
    if (zv_start(arena, WORDS) != ZV_DONE)
        return EXIT_FAILURE;
    zv_batch(arena, WORDS, lab, REQUESTS);
    printf("an arena of %d words\n", WORDS);
    printf("request  kind         b    n  code  block  granted\n");
    for (int at = 0; at < REQUESTS; at++)
        show(at + 1, &lab[at]);
    return EXIT_SUCCESS;
}
