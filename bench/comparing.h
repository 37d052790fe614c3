/* A library that makes each call through ours and through plain C, and ends the program where they differ. */
#ifndef COMPARING_H
#define COMPARING_H

#include "library.h"

/*
 * Its calls are made on the arena given through ours, and on the copy of `begin_comparing` through plain C. A call may
 * also be given a part of that arena; a text that is written to has at most LONGEST_TEXT bytes.
 */
extern const struct library both;

enum { LONGEST_TEXT = 150000 };

/* What was seen since `begin_comparing`. */
struct seen {
    unsigned long calls;
    /* Calls that granted a block anew at another place. */
    unsigned long moves;
};

extern struct seen seen;

/* Takes a copy of this arena for plain C, and counts from 0; `subject` is said where a difference is found. */
void begin_comparing(const uint32_t *arena, size_t words, const char *subject);

/*
 * Makes one outcome of plain C wrong, some hundred calls from now, to show that a difference would be found: a code, an
 * answer, a word or a text, by its name. Answers 0 where there is no such name.
 */
int spoil_comparing(const char *what);

#endif
