/*
 * The calls of include/zandervlecht.h once more, in plain C: what the library is measured against.
 *
 * Same rules, same codes, same answers and, word for word and byte for byte, the same arena and the same text
 * afterwards. What is written there of the zv_ calls holds for these.
 */
#ifndef PLAIN_H
#define PLAIN_H

#include "zandervlecht.h"

uint32_t plain_start(uint32_t *arena, size_t words);
uint32_t plain_alloc(uint32_t *arena, size_t words, uint32_t n, uint32_t answer[2]);
uint32_t plain_alloc_best(uint32_t *arena, size_t words, uint32_t n, uint32_t answer[2]);
uint32_t plain_alloc_next(uint32_t *arena, size_t words, struct zv_rover *rover, uint32_t n, uint32_t answer[2]);
uint32_t plain_free(uint32_t *arena, size_t words, uint32_t b);
uint32_t plain_resize(uint32_t *arena, size_t words, uint32_t b, uint32_t n, uint32_t answer[2]);
uint32_t plain_relocate(uint32_t *arena, size_t words, uint32_t b, uint32_t n, uint32_t answer[2]);
uint32_t plain_realloc(uint32_t *arena, size_t words, uint32_t b, uint32_t n, uint32_t answer[2]);
uint32_t plain_size(const uint32_t *arena, size_t words, uint32_t b, uint32_t answer[2]);
uint32_t plain_report(const uint32_t *arena, size_t words, uint32_t answer[4]);
uint32_t plain_write(const uint32_t *arena, size_t words, uint8_t *text, size_t bytes, uint32_t answer[1]);
uint32_t plain_read(const uint8_t *text, size_t bytes, uint32_t *arena, size_t words);
uint32_t plain_check(const uint8_t *spelled, size_t bytes);

#endif
