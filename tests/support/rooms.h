/*
 * Room for what a call is lent, for the programs in C of the tests. A program defines PROGRAM, its name, first.
 *
 * Around each room lie guard bytes. Where a call changes one, the program says so and ends with status 1. With
 * -DGUARD_BYTES=0 there are none, so that a checker such as valgrind sees a step outside.
 */
#ifndef ROOMS_H
#define ROOMS_H

#include <stdbool.h>
#include <stdio.h>
#include <stdlib.h>

#include "zandervlecht.h"

/* So many bytes that the room behind them can be lent as words. */
#ifndef GUARD_BYTES
#define GUARD_BYTES 64
#endif

static const size_t guard_bytes = GUARD_BYTES;

/* Ends the program with a complaint. */
static inline void give_up(const char *complaint, const char *what)
{
    fprintf(stderr, "%s: %s%s\n", PROGRAM, complaint, what);
    exit(EXIT_FAILURE);
}

/* The byte that lies so many bytes from the beginning of fresh room. */
static inline uint8_t fresh_byte(size_t at)
{
    return (uint8_t)(0xA5 + at);
}

/* Fresh room for so many bytes, with guard bytes before and behind them. */
static inline void *fresh_room(size_t bytes)
{
    size_t all = guard_bytes + bytes + guard_bytes;
    uint8_t *room = malloc(all > 0 ? all : 1);
    if (room == NULL)
        give_up("there is no memory for ", "a case");
    for (size_t at = 0; at < all; at++)
        room[at] = fresh_byte(at);
    return room + guard_bytes;
}

/* Looks at the guard bytes around these bytes, and gives the room back. */
static inline void end_room(const char *what, void *lent, size_t bytes)
{
    uint8_t *room = (uint8_t *)lent - guard_bytes;
    for (size_t at = 0; at < guard_bytes; at++) {
        size_t behind = guard_bytes + bytes + at;
        if (room[at] != fresh_byte(at))
            give_up("a call changed a byte before ", what);
        if (room[behind] != fresh_byte(behind))
            give_up("a call changed a byte behind ", what);
    }
    free(room);
}

/* Writes so many bytes. */
static inline void write_bytes(const void *content, size_t bytes)
{
    if (fwrite(content, 1, bytes, stdout) != bytes)
        give_up("a reply cannot be written", "");
}

/* Runs cases until there is no whole one, and sees to it that all replies come out. */
static inline int run_all(bool (*run_case)(void))
{
    while (run_case())
        continue;
    if (fflush(stdout) != 0)
        give_up("the replies cannot be written", "");
    return EXIT_SUCCESS;
}

#endif
