/* How much stack something takes. */
#ifndef PAINTING_H
#define PAINTING_H

#include <stddef.h>

/*
 * Runs an errand on a stack of its own, every byte of which was painted before, and answers how many bytes from the top
 * on it has painted over. What it calls has to have been called before: else the loader's work is counted too.
 */
size_t painted_over(void (*errand)(void));

#endif
