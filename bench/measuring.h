/* Timing: several players make their turns in short rounds, one after another, and are held against each other. */
#ifndef MEASURING_H
#define MEASURING_H

#include "turns.h"

enum { MOST_PLAYERS = 3, MOST_ROUNDS = 2001 };

/* A library that makes turns on an arena of its own. */
struct player {
    const struct library *library;
    const struct turn *turn;
    uint32_t *arena;
    size_t words;
    struct part part;
};

/* The seconds that a turn of each player took, round by round. */
struct times {
    size_t rounds;
    double each[MOST_PLAYERS][MOST_ROUNDS];
};

/* The middle of many numbers, and the lowest and highest quartile. */
struct spread {
    double low;
    double middle;
    double high;
};

/* Lets the players play against each other for so many seconds. */
void measure(struct player *players, size_t count, double seconds, struct times *times);

/* The time of a player's turn. */
struct spread time_of(const struct times *times, size_t player);

/* The time of one player's turn over that of another in the same round, with `off` seconds taken off both. */
struct spread ratio_of(const struct times *times, size_t over, size_t under, double off);

#endif
