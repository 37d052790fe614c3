/*
 * Timing on a machine that has other things to do.
 *
 * A round is short, a fraction of a millisecond for each player, and every player has its stretch in each round, so
 * what slows the machine down slows them all down. What counts is the ratio within a round; the middle of all rounds is
 * not moved by those in which something else ran.
 */
#define _POSIX_C_SOURCE 200112L

#include "measuring.h"

#include <stdlib.h>
#include <time.h>

#define STRETCH 0.00015

enum { LEAST_ROUNDS = 9 };

static double now(void)
{
    struct timespec time;

    clock_gettime(CLOCK_MONOTONIC, &time);
    return (double)time.tv_sec + (double)time.tv_nsec * 1e-9;
}

static void play(struct player *player, unsigned long turns)
{
    while (turns-- > 0)
        player->turn->make(player->library, player->arena, player->words, &player->part);
}

static double time_turns(struct player *player, unsigned long turns)
{
    double begun = now();

    play(player, turns);
    return (now() - begun) / (double)turns;
}

/* How many turns a player makes in a round: as many as take a stretch of time, and at least one. */
static unsigned long turns_in_a_stretch(struct player *player)
{
    unsigned long turns = 1;

    play(player, 1);
    while (time_turns(player, turns) * (double)turns < STRETCH)
        turns *= 2;
    return turns;
}

/* Before its stretch is timed a player makes some turns, since the other one's are in the caches. */
static double time_stretch(struct player *player, unsigned long turns)
{
    play(player, turns / 8);
    return time_turns(player, turns);
}

static size_t rounds_for(double seconds, double round)
{
    double rounds = seconds / round;

    if (rounds < LEAST_ROUNDS)
        return LEAST_ROUNDS;
    return rounds > MOST_ROUNDS ? MOST_ROUNDS : (size_t)rounds;
}

void measure(struct player *players, size_t count, double seconds, struct times *times)
{
    unsigned long turns[MOST_PLAYERS];
    double begun;
    size_t round, i;

    for (i = 0; i < count; i++)
        turns[i] = turns_in_a_stretch(&players[i]);
    begun = now();
    for (i = 0; i < count; i++)
        time_stretch(&players[i], turns[i]);
    times->rounds = rounds_for(seconds, now() - begun);
    for (round = 0; round < times->rounds; round++) {
        for (i = 0; i < count; i++) {
            size_t player = (round + i) % count;

            times->each[player][round] = time_stretch(&players[player], turns[player]);
        }
    }
}

static int compare_numbers(const void *a, const void *b)
{
    double x = *(const double *)a, y = *(const double *)b;

    return (x > y) - (x < y);
}

static struct spread spread_of(double *numbers, size_t count)
{
    qsort(numbers, count, sizeof *numbers, compare_numbers);
    return (struct spread){numbers[count / 4], numbers[count / 2], numbers[count - 1 - count / 4]};
}

struct spread time_of(const struct times *times, size_t player)
{
    double numbers[MOST_ROUNDS];
    size_t i;

    for (i = 0; i < times->rounds; i++)
        numbers[i] = times->each[player][i];
    return spread_of(numbers, times->rounds);
}

struct spread ratio_of(const struct times *times, size_t over, size_t under, double off)
{
    double numbers[MOST_ROUNDS];
    size_t i;

    for (i = 0; i < times->rounds; i++)
        numbers[i] = (times->each[over][i] - off) / (times->each[under][i] - off);
    return spread_of(numbers, times->rounds);
}
