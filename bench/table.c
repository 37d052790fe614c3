/* Prints the tables. */
#include "table.h"

const size_t lengths[LENGTHS] = {64, 256, 1024, 4096, 16384};

struct output output;

const char *const group_names[GROUPS] = {
    "no free chunk", "one gap at the top", "every second chunk free", "usual use", "moves", "traces",
};

/* From so many chunks on an arena counts as one of many: what a call costs beside its chunks no longer shows there. */
enum { MANY_CHUNKS = 32 };

/* The highest ratio of a group so far, and its row. */
struct highest {
    double ratio;
    char where[80];
};

/* Of each group: with fewer chunks, and with many. */
static struct highest highest[GROUPS][2];

void print_heading(const char *title)
{
    int i;

    printf("\n%s\n\n%-24s", title, "words");
    for (i = 0; i < LENGTHS; i++)
        printf("%17lu", (unsigned long)lengths[i]);
    printf("\n");
}

void print_name(const char *name)
{
    printf("%-24s", name);
    fflush(stdout);
}

void print_chunks(size_t chunks)
{
    printf("%17lu", (unsigned long)chunks);
}

void print_ratio(const struct row *row)
{
    if (row->chunks == 0)
        printf("%17s", "-");
    else
        printf("%7.2f %4.2f-%4.2f", row->ratio.middle, row->ratio.low, row->ratio.high);
    fflush(stdout);
}

void print_share(double percent)
{
    printf("%16.0f%%", percent);
}

void end_line(void)
{
    printf("\n");
}

void print_size_heading(const char *title)
{
    printf("\n%s\n\n%8s%8s%10s%10s%12s%18s", title, "words", "chunks", "ours", "plain C", "per chunk",
           "ours / plain C");
    if (!output.emulated)
        printf("%12s%12s", "ours ns", "plain C ns");
    printf("\n");
}

void print_size_row(const struct row *row)
{
    printf("%8lu%8lu%10.2f%10.2f%12.4f%8.2f %4.2f-%4.2f", (unsigned long)row->words, (unsigned long)row->chunks,
           row->ours_relative, row->plain_relative, row->ours_relative / (double)row->chunks, row->ratio.middle,
           row->ratio.low, row->ratio.high);
    if (!output.emulated)
        printf("%12.1f%12.1f", row->ours, row->plain);
    printf("\n");
    fflush(stdout);
}

void write_row(const char *section, const char *crowd, const char *call, const struct row *row)
{
    if (output.rows == NULL || row->chunks == 0)
        return;
    fprintf(output.rows, "%s\t%s\t%s\t%lu\t%lu\t%.4f\t%.4f\t%.4f\t%.4f\t%.4f\t%.1f\t%.1f\n", section, crowd, call,
            (unsigned long)row->words, (unsigned long)row->chunks, row->ratio.middle, row->ratio.low, row->ratio.high,
            row->ours_relative, row->plain_relative, row->ours, row->plain);
}

void note_ratio(enum group group, const char *crowd, const char *call, const struct row *row)
{
    struct highest *top = &highest[group][row->chunks >= MANY_CHUNKS];

    if (row->ratio.middle <= top->ratio)
        return;
    top->ratio = row->ratio.middle;
    snprintf(top->where, sizeof top->where, "%s, %s, %lu words, %lu chunks", call, crowd, (unsigned long)row->words,
             (unsigned long)row->chunks);
}

static void print_highest(const char *title, int many)
{
    int i;

    printf("\n%s\n\n", title);
    for (i = 0; i < GROUPS; i++) {
        if (highest[i][many].ratio > 0)
            printf("%-24s%7.2f   %s\n", group_names[i], highest[i][many].ratio, highest[i][many].where);
    }
}

/* The higher of a group's two. */
static double top_of(enum group group)
{
    double few = highest[group][0].ratio, many = highest[group][1].ratio;

    return few > many ? few : many;
}

void print_summary(void)
{
    print_highest("Highest ratios, fewer than 32 chunks", 0);
    print_highest("Highest ratios, 32 chunks and more", 1);
    printf("\nThe goal: at most 1.10 without free chunks, and 1.40 on traces.\n"
           "Highest ratio without free chunks %.2f, from 32 chunks on %.2f; on traces %.2f\n",
           top_of(NO_FREE_CHUNK), highest[NO_FREE_CHUNK][1].ratio, top_of(TRACES));
}
