/*
 * Measures the library against the same calls in plain C, and prints the ratios: ours over plain C.
 *
 *     bench [--quick] [--rows FILE] [--emulated] [--control] [--spoil code|answer|word]
 *
 * With --control plain C is held against itself: what differs from 1.00 then is noise, and the luck of where code lies.
 * Each row is compared first: the calls that will be timed are made through both libraries, and where a code, a field
 * of an answer or a word of the arena differs the program says so and ends with status 1. With --spoil one of these is
 * made wrong, to show that this would be found. How a row is timed is written in measuring.c.
 */
#include <stdlib.h>
#include <string.h>

#include "comparing.h"
#include "table.h"

enum { CHUNK_COUNTS = 11, WORD_COUNTS = 8 };

static const char *const crowd_names[] = {"few blocks", "many blocks"};
static double seconds_a_row = 0.3;
static uint32_t seeds = 2;

static void print_head(void)
{
    printf("Ours over plain C: the same calls through both libraries, on equal arenas, in short rounds by turns.\n"
           "A cell is the middle of the ratios of all rounds, and their lowest and highest quartile.\n"
           "Codes, answers and all words were compared first, for every row.\n");
    if (measured == &again)
        printf("CONTROL: in place of ours this is plain C once more, so each ratio should be 1.00.\n");
    if (output.emulated)
        printf("The programs run under an emulator: only the ratios count.\n");
}

static enum group group_of(const struct turn *turn, enum filling filling)
{
    switch (filling) {
    case EVERY_SECOND:
        return SECOND_FREE;
    case USUAL_USE:
        return IN_USE;
    default:
        return turn->needs_gap ? ONE_GAP : NO_FREE_CHUNK;
    }
}

/* A line of the table of a filling: one turn at every length. */
static void run_line(const struct turn *turn, enum filling filling, enum crowd crowd)
{
    enum group group = group_of(turn, filling);
    int i;

    print_name(turn->name);
    for (i = 0; i < LENGTHS; i++) {
        struct row row = turn_row(turn, filling, crowd, lengths[i], seconds_a_row);

        print_ratio(&row);
        write_row(group_names[group], crowd_names[crowd], turn->name, &row);
        note_ratio(group, crowd_names[crowd], turn->name, &row);
        if (turn->moves > 0)
            note_ratio(MOVES, crowd_names[crowd], turn->name, &row);
    }
    end_line();
}

static void print_chunk_counts(enum filling filling, enum crowd crowd)
{
    static uint32_t arena[ZV_GREATEST_WORDS];
    static size_t starts[MOST_CHUNKS];
    int i;

    print_name(crowd == FEW ? "few blocks: chunks" : "many blocks: chunks");
    for (i = 0; i < LENGTHS; i++) {
        fill_arena(arena, lengths[i], filling, crowd);
        print_chunks(chunks_of(arena, lengths[i], starts));
    }
    end_line();
}

/* The table of one filling: every turn at every length, with few blocks and with many. */
static void run_filling(const char *title, enum filling filling)
{
    enum crowd crowd;
    int i;

    print_heading(title);
    for (crowd = FEW; crowd <= MANY; crowd++) {
        print_chunk_counts(filling, crowd);
        for (i = 0; i < TURN_KINDS; i++)
            run_line(&timed_turns[i], filling, crowd);
    }
}

/* Two lines for a trace: the ratios, and how many of its calls moved a block. */
static void run_trace(const struct mix *mix, uint32_t seed)
{
    struct row rows[LENGTHS];
    char name[40];
    int i;

    snprintf(name, sizeof name, "%s, seed %u", mix->name, seed);
    print_name(name);
    for (i = 0; i < LENGTHS; i++) {
        rows[i] = trace_row(mix, seed, lengths[i], 2 * seconds_a_row);
        print_ratio(&rows[i]);
        write_row(group_names[TRACES], "many blocks", name, &rows[i]);
        note_ratio(TRACES, "many blocks", name, &rows[i]);
    }
    end_line();
    print_name("  moves");
    for (i = 0; i < LENGTHS; i++)
        print_share(rows[i].moves);
    end_line();
    print_name("  time of the loop");
    for (i = 0; i < LENGTHS; i++)
        print_share(rows[i].loop);
    end_line();
}

static void run_traces(void)
{
    uint32_t seed;

    print_heading("Whole traces: 24,000 random calls of all kinds but the two other fits. The time of the loop around them is taken off.");
    for (seed = 1; seed <= seeds; seed++) {
        run_trace(&few_moves, seed);
        run_trace(&many_moves, seed);
    }
}

/* The time of a call by the number of chunks, and then by the number of words. */
static void run_sizes(void)
{
    static const size_t chunk_counts[CHUNK_COUNTS] = {16, 64, 128, 256, 384, 512, 768, 1024, 2048, 3072, 4095};
    static const size_t word_counts[WORD_COUNTS] = {128, 256, 512, 1024, 2048, 4096, 8192, 16384};
    int i;

    print_size_heading("Linear in chunks: size of the last block, all live. A time of 1 is plain C's with 16 chunks.\n"
                       "(300 to 800 headers lie on as many cache lines: where those are more than the first cache\n"
                       "holds, a chunk takes longer.)");
    for (i = 0; i < CHUNK_COUNTS; i++) {
        struct row row = size_row(ZV_GREATEST_WORDS, chunk_counts[i], seconds_a_row);

        print_size_row(&row);
        write_row("chunks", "-", "size", &row);
    }
    print_size_heading("Flat in words: the same call with 16 chunks.");
    for (i = 0; i < WORD_COUNTS; i++) {
        struct row row = size_row(word_counts[i], 16, seconds_a_row);

        print_size_row(&row);
        write_row("words", "-", "size", &row);
    }
}

static void be_quick(void)
{
    seconds_a_row = 0.015;
    seeds = 1;
}

static void refuse_options(void)
{
    fprintf(stderr, "usage: bench [--quick] [--rows FILE] [--emulated] [--control] [--spoil code|answer|word]\n");
    exit(2);
}

static void open_rows(const char *name)
{
    output.rows = fopen(name, "w");
    if (output.rows == NULL) {
        perror(name);
        exit(2);
    }
    fprintf(output.rows, "section\tblocks\tcall\twords\tchunks\tratio\tlow\thigh\tours\tplain\tours_ns\tplain_ns\n");
}

static void read_options(int count, char **options)
{
    int i;

    for (i = 1; i < count; i++) {
        if (strcmp(options[i], "--quick") == 0)
            be_quick();
        else if (strcmp(options[i], "--emulated") == 0)
            output.emulated = 1;
        else if (strcmp(options[i], "--control") == 0)
            measured = &again;
        else if (strcmp(options[i], "--rows") == 0 && i + 1 < count)
            open_rows(options[++i]);
        else if (strcmp(options[i], "--spoil") == 0 && i + 1 < count && spoil_comparing(options[i + 1]))
            i++;
        else
            refuse_options();
    }
}

int main(int count, char **options)
{
    read_options(count, options);
    print_head();
    run_filling("No free chunk; a turn that needs a gap has one, at the top", ALL_LIVE);
    run_filling("Every second chunk free", EVERY_SECOND);
    run_filling("Usual use", USUAL_USE);
    run_traces();
    run_sizes();
    print_summary();
    return output.rows != NULL && fclose(output.rows) != 0;
}
