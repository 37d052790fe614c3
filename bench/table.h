/* What the bench prints: tables to read, and the same rows for a program to read. */
#ifndef TABLE_H
#define TABLE_H

#include <stdio.h>

#include "rows.h"

enum { LENGTHS = 5 };

/* The lengths of the arenas that are measured, one to a column. */
extern const size_t lengths[LENGTHS];

/* The rows of which the highest ratio is of interest. */
enum group { NO_FREE_CHUNK, ONE_GAP, SECOND_FREE, IN_USE, MOVES, TRACES, GROUPS };

/* Where to write the rows for a program to, or NULL; and whether times in nanoseconds mean anything. */
struct output {
    FILE *rows;
    int emulated;
};

extern struct output output;

extern const char *const group_names[GROUPS];

/* The heading of a table with a column for each length. */
void print_heading(const char *title);

/* A line of such a table: its name, then cell by cell, then its end. */
void print_name(const char *name);
void print_chunks(size_t chunks);
void print_ratio(const struct row *row);
void print_share(double percent);
void end_line(void);

/* The tables of the size calls: chunks and words, times over the reference, the ratio, the time of a chunk. */
void print_size_heading(const char *title);
void print_size_row(const struct row *row);

/* Writes a row for a program to read. */
void write_row(const char *section, const char *crowd, const char *call, const struct row *row);

/* Takes note of a ratio, and where it was found, for the summary. */
void note_ratio(enum group group, const char *crowd, const char *call, const struct row *row);

/* The highest ratio of each group, and the one line that says whether the goal is met. */
void print_summary(void);

#endif
