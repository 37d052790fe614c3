/* Albums: arenas of one length, and their pictures, to be written, read and checked again and again. */
#ifndef ALBUM_H
#define ALBUM_H

#include "turns.h"

enum { ALBUM_WORDS = ZV_GREATEST_WORDS, LEAST_PICTURED = 64 };

/* The bytes of all pictures: eight for each word, and seven for each line; most of them where pictures are shortest. */
enum { ALBUM_BYTES = ALBUM_WORDS * 8 + ALBUM_WORDS / 8 * 7 + ALBUM_WORDS / LEAST_PICTURED * 7 };

/* The arenas' pictures, all of them as many bytes long, one behind another; and the bytes that spell their words. */
struct album {
    size_t count;
    size_t picture_bytes;
    uint8_t pictures[ALBUM_BYTES];
    uint8_t spelled[4 * ALBUM_WORDS];
};

/* A turn makes a call for each arena of its album. */
enum picture_turn { WRITE, READ, CHECK, PICTURE_TURNS };

extern const struct turn picture_turns[PICTURE_TURNS];

/* Makes the album of so many arenas of so many words, which lie one behind another; no picture is written yet. */
void begin_album(struct album *album, const uint32_t *arenas, size_t words, size_t count);

/*
 * Makes arenas in usual use and begins their album. They have ALBUM_WORDS words together: more digits than a processor
 * can learn by heart, however short each picture is.
 */
void fill_album(struct album *album, uint32_t arenas[ALBUM_WORDS], size_t words);

#endif
