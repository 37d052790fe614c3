/* Sets up the rows: an arena, the calls, the comparing pass that makes exactly these calls, and then the timing. */
#include "rows.h"

#include <stdio.h>
#include <stdlib.h>
#include <string.h>

#include "comparing.h"

/* The players: the third is what the other two are held against, or the loop without its calls. */
enum { OURS, PLAIN, THIRD };

enum { REFERENCE_CHUNKS = 16, COMPARED_TURNS = 3 };

const struct library *measured = &ours;

/* An arena for each player; they lie alike in their pages. */
static uint32_t arenas[MOST_PLAYERS][ZV_GREATEST_WORDS] __attribute__((aligned(4096)));
static struct player players[MOST_PLAYERS];
static struct times times;

static void give_up(const struct turn *turn, size_t words, const char *what)
{
    fprintf(stderr, "bench: %s, %lu words: %s\n", turn->name, (unsigned long)words, what);
    exit(1);
}

/* All players get the arena of the first one. */
static void seat_players(const struct turn *turn, size_t words, const struct part *part)
{
    const struct library *libraries[MOST_PLAYERS] = {measured, &plain, &idle};
    size_t i;

    for (i = 0; i < MOST_PLAYERS; i++) {
        players[i] = (struct player){libraries[i], turn, arenas[i], words, *part};
        if (i > 0)
            memcpy(arenas[i], arenas[OURS], words * sizeof arenas[i][0]);
    }
}

/* Makes some turns through both libraries. They have to do what they are for, and to bring the arena back. */
static void compare_turns(const struct turn *turn, size_t words, struct part part)
{
    static uint32_t brought_back[ZV_GREATEST_WORDS];
    size_t bytes = words * sizeof brought_back[0];
    int i;

    memcpy(brought_back, arenas[OURS], bytes);
    begin_comparing(brought_back, words, turn->name);
    for (i = 0; i < COMPARED_TURNS; i++) {
        if (turn->make(&both, brought_back, words, &part) != turn->codes)
            give_up(turn, words, "a call was answered with another code than it should be");
    }
    if (seen.calls != COMPARED_TURNS * turn->calls || seen.moves != COMPARED_TURNS * turn->moves)
        give_up(turn, words, "other calls were made than should be");
    if (memcmp(brought_back, arenas[OURS], bytes) != 0)
        give_up(turn, words, "the turns do not bring the arena back");
}

static double nanoseconds(size_t player, unsigned long calls)
{
    return time_of(&times, player).middle * 1e9 / (double)calls;
}

static struct row timed_row(size_t words, size_t chunks, unsigned long calls, double off)
{
    struct row row = {.words = words, .chunks = chunks, .calls = calls};

    row.ratio = ratio_of(&times, OURS, PLAIN, off);
    row.ours = nanoseconds(OURS, calls);
    row.plain = nanoseconds(PLAIN, calls);
    return row;
}

struct row turn_row(const struct turn *turn, enum filling filling, enum crowd crowd, size_t words, double seconds)
{
    static size_t starts[MOST_CHUNKS];
    enum filling kind = filling == ALL_LIVE && turn->needs_gap ? GAP_AT_TOP : filling;
    struct part part;

    fill_arena(arenas[OURS], words, kind, crowd);
    if (!choose_part(turn, arenas[OURS], words, kind, &part))
        return (struct row){.words = words};
    compare_turns(turn, words, part);
    seat_players(turn, words, &part);
    measure(players, 2, seconds, &times);
    return timed_row(words, chunks_of(arenas[OURS], words, starts), turn->calls, 0);
}

struct row trace_row(const struct mix *mix, uint32_t seed, size_t words, double seconds)
{
    static struct trace trace;
    static size_t starts[MOST_CHUNKS];
    struct part part = {.trace = &trace};
    struct row row;
    double off;

    record_trace(&trace, words, mix, seed);
    memset(arenas[OURS], 0, words * sizeof arenas[OURS][0]);
    begin_comparing(arenas[OURS], words, mix->name);
    make_trace(&both, arenas[OURS], words, &trace);
    seat_players(&trace_turn, words, &part);
    measure(players, 3, seconds, &times);
    off = time_of(&times, THIRD).middle;
    row = timed_row(words, chunks_of(arenas[OURS], words, starts), seen.calls, off);
    row.moves = 100.0 * (double)seen.moves / (double)seen.calls;
    row.loop = 100.0 * off / time_of(&times, PLAIN).middle;
    return row;
}

struct row size_row(size_t words, size_t chunks, double seconds)
{
    struct part part, reference;
    struct row row;

    fill_with_live(arenas[OURS], words, chunks);
    choose_part(size_turn, arenas[OURS], words, ALL_LIVE, &part);
    compare_turns(size_turn, words, part);
    seat_players(size_turn, words, &part);
    fill_with_live(arenas[THIRD], ZV_GREATEST_WORDS, REFERENCE_CHUNKS);
    choose_part(size_turn, arenas[THIRD], ZV_GREATEST_WORDS, ALL_LIVE, &reference);
    players[THIRD] = (struct player){&plain, size_turn, arenas[THIRD], ZV_GREATEST_WORDS, reference};
    measure(players, 3, seconds, &times);
    row = timed_row(words, chunks, size_turn->calls, 0);
    row.ours_relative = ratio_of(&times, OURS, THIRD, 0).middle;
    row.plain_relative = ratio_of(&times, PLAIN, THIRD, 0).middle;
    return row;
}
