/* Makes albums, and the turns that go through one. */
#include "album.h"

#include <string.h>

enum { WORD_BYTES = 4, WORD_DIGITS = 8, FRAME_WORDS = 8, LINE_BYTES = 7 };

static uint32_t make_writes(const struct library *library, uint32_t *arenas, size_t words, struct part *part)
{
    struct album *album = part->album;
    size_t bytes = album->picture_bytes;
    uint32_t answer[1];
    uint32_t codes = 0;
    size_t i;

    for (i = 0; i < album->count; i++)
        codes |= library->write(arenas + i * words, words, album->pictures + i * bytes, bytes, answer);
    return codes;
}

static uint32_t make_reads(const struct library *library, uint32_t *arenas, size_t words, struct part *part)
{
    const struct album *album = part->album;
    size_t bytes = album->picture_bytes;
    uint32_t codes = 0;
    size_t i;

    for (i = 0; i < album->count; i++)
        codes |= library->read(album->pictures + i * bytes, bytes, arenas + i * words, words);
    return codes;
}

static uint32_t make_checks(const struct library *library, uint32_t *arenas, size_t words, struct part *part)
{
    const struct album *album = part->album;
    size_t bytes = words * WORD_BYTES;
    uint32_t codes = 0;
    size_t i;

    (void)arenas;
    for (i = 0; i < album->count; i++)
        codes |= library->check(album->spelled + i * bytes, bytes);
    return codes;
}

const struct turn picture_turns[PICTURE_TURNS] = {
    {"write", make_writes, 0, 0, ZV_DONE, 0, ANYTHING, 0},
    {"read", make_reads, 0, 0, ZV_DONE, 0, ANYTHING, 0},
    {"check", make_checks, 0, 0, ZV_DONE, 0, ANYTHING, 0},
};

void begin_album(struct album *album, const uint32_t *arenas, size_t words, size_t count)
{
    size_t i;

    album->count = count;
    album->picture_bytes = LINE_BYTES + words * WORD_DIGITS + (words + FRAME_WORDS - 1) / FRAME_WORDS * LINE_BYTES;
    memset(album->pictures, 0, sizeof album->pictures);
    for (i = 0; i < count * words * WORD_BYTES; i++)
        album->spelled[i] = (uint8_t)(arenas[i / WORD_BYTES] >> 8 * (i % WORD_BYTES));
}

void fill_album(struct album *album, uint32_t arenas[ALBUM_WORDS], size_t words)
{
    size_t count = ALBUM_WORDS / words;
    size_t i;

    for (i = 0; i < count; i++)
        fill_used(arenas + i * words, words, MANY, (uint32_t)i);
    begin_album(album, arenas, words, count);
}
