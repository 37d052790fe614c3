/* The libraries that are measured, as values of one type: the same loop then runs through either. */
#ifndef LIBRARY_H
#define LIBRARY_H

#include "zandervlecht.h"

struct library {
    uint32_t (*start)(uint32_t *arena, size_t words);
    uint32_t (*alloc)(uint32_t *arena, size_t words, uint32_t n, uint32_t answer[2]);
    uint32_t (*alloc_best)(uint32_t *arena, size_t words, uint32_t n, uint32_t answer[2]);
    uint32_t (*alloc_next)(uint32_t *arena, size_t words, struct zv_rover *rover, uint32_t n, uint32_t answer[2]);
    uint32_t (*free)(uint32_t *arena, size_t words, uint32_t b);
    uint32_t (*resize)(uint32_t *arena, size_t words, uint32_t b, uint32_t n, uint32_t answer[2]);
    uint32_t (*relocate)(uint32_t *arena, size_t words, uint32_t b, uint32_t n, uint32_t answer[2]);
    uint32_t (*realloc)(uint32_t *arena, size_t words, uint32_t b, uint32_t n, uint32_t answer[2]);
    uint32_t (*size)(const uint32_t *arena, size_t words, uint32_t b, uint32_t answer[2]);
    uint32_t (*report)(const uint32_t *arena, size_t words, uint32_t answer[4]);
    uint32_t (*write)(const uint32_t *arena, size_t words, uint8_t *text, size_t bytes, uint32_t answer[1]);
    uint32_t (*read)(const uint8_t *text, size_t bytes, uint32_t *arena, size_t words);
    uint32_t (*check)(const uint8_t *spelled, size_t bytes);
};

/* The proved library. */
extern const struct library ours;

/* The one in plain C. */
extern const struct library plain;

/* Plain C once more. Held against itself it shows how far a ratio can be off without any cause in the code. */
extern const struct library again;

/* One whose calls do nothing: it shows what the loops around the calls take. */
extern const struct library idle;

#endif
