/*
 * The calls for pictures in plain C, written for speed: digits are looked up in tables, and each byte of a text is
 * looked at once. What a picture is is written in include/zandervlecht.h and docs/BOARD.md.
 */
#include "plain.h"

#include <string.h>

#include "plain_walk.h"

/* The words of a full frame; the digits before the words of a line, and those of a word; the bytes of a word. */
enum { FRAME_WORDS = 8, HEAD_DIGITS = 6, WORD_DIGITS = 8, WORD_BYTES = 4 };

/* The bytes of a line without its words; and what marks a digit in the table of worths. */
enum { LINE_BYTES = HEAD_DIGITS + 1, DIGIT = 16 };

static const char glyphs[] = "0123456789ABCDEF";

/* What a byte is worth as a digit, with the mark of a digit; 0 where it is none. */
static const uint8_t worths[256] = {
    ['0'] = DIGIT,      ['1'] = DIGIT + 1,  ['2'] = DIGIT + 2,  ['3'] = DIGIT + 3,  ['4'] = DIGIT + 4,
    ['5'] = DIGIT + 5,  ['6'] = DIGIT + 6,  ['7'] = DIGIT + 7,  ['8'] = DIGIT + 8,  ['9'] = DIGIT + 9,
    ['A'] = DIGIT + 10, ['B'] = DIGIT + 11, ['C'] = DIGIT + 12, ['D'] = DIGIT + 13, ['E'] = DIGIT + 14,
    ['F'] = DIGIT + 15, ['a'] = DIGIT + 10, ['b'] = DIGIT + 11, ['c'] = DIGIT + 12, ['d'] = DIGIT + 13,
    ['e'] = DIGIT + 14, ['f'] = DIGIT + 15,
};

static size_t line_bytes(size_t count)
{
    return LINE_BYTES + count * WORD_DIGITS;
}

static size_t picture_bytes(size_t words)
{
    return line_bytes(words) + (words + FRAME_WORDS - 1) / FRAME_WORDS * LINE_BYTES;
}

/* How many words the frame has that begins at word i of so many. */
static size_t frame_words(size_t words, size_t i)
{
    return words - i < FRAME_WORDS ? words - i : FRAME_WORDS;
}

/* Writes a number in so many digits. */
static inline void put_number(uint8_t *text, uint32_t number, int digits)
{
    int i;

    for (i = 0; i < digits; i++)
        text[i] = (uint8_t)glyphs[number >> 4 * (digits - 1 - i) & 15];
}

/* Writes a line, and answers where it ends. */
static inline uint8_t *put_line(uint8_t *text, uint8_t kind, uint32_t number, const uint32_t *words, size_t count)
{
    size_t i;

    text[0] = '0';
    text[1] = kind;
    put_number(text + 2, number, 4);
    text += HEAD_DIGITS;
    for (i = 0; i < count; i++, text += WORD_DIGITS)
        put_number(text, words[i], WORD_DIGITS);
    *text = '\n';
    return text + 1;
}

/* The number that so many digits make; the mark goes where one of them is none. */
static inline uint32_t number_at(const uint8_t *text, int digits, uint32_t *mark)
{
    uint32_t number = 0;
    int i;

    for (i = 0; i < digits; i++) {
        *mark &= worths[text[i]];
        number = number << 4 | (worths[text[i]] & 15);
    }
    return number;
}

/* Reads the words of a line, and answers whether it is one of this kind and number. */
static inline int read_line(const uint8_t *text, uint8_t kind, uint32_t number, uint32_t *words, size_t count)
{
    uint32_t mark = DIGIT;
    int good = text[0] == '0' && text[1] == kind && number_at(text + 2, 4, &mark) == number;
    size_t i;

    text += HEAD_DIGITS;
    for (i = 0; i < count; i++, text += WORD_DIGITS)
        words[i] = number_at(text, WORD_DIGITS, &mark);
    return good && mark == DIGIT && *text == '\n';
}

/* Reads the words of a picture, as far as they fit, and how many they are; answers whether the text is one. */
static inline int decode(const uint8_t *text, size_t bytes, uint32_t words[ZV_GREATEST_WORDS], size_t *found)
{
    uint32_t unused = DIGIT;
    size_t count, i;

    if (bytes < LINE_BYTES)
        return 0;
    *found = number_at(text + 2, 4, &unused);
    if (bytes != picture_bytes(*found) || !read_line(text, '6', (uint32_t)*found, words, 0))
        return 0;
    text += LINE_BYTES;
    for (i = 0; i < *found; i += count, text += line_bytes(count)) {
        count = frame_words(*found, i);
        if (!read_line(text, '7', (uint32_t)i, i + count <= ZV_GREATEST_WORDS ? words + i : words, count))
            return 0;
    }
    return 1;
}

static uint32_t word_at(const uint8_t *spelled)
{
    return spelled[0] | (uint32_t)spelled[1] << 8 | (uint32_t)spelled[2] << 16 | (uint32_t)spelled[3] << 24;
}

uint32_t plain_write(const uint32_t *arena, size_t words, uint8_t *text, size_t bytes, uint32_t answer[1])
{
    uint32_t code = check_arena(arena, words);
    size_t i;

    if (code == ZV_DONE && bytes < picture_bytes(words))
        code = ZV_TEXT_ROOM;
    answer[0] = code == ZV_DONE ? (uint32_t)picture_bytes(words) : 0;
    if (code != ZV_DONE)
        return code;
    text = put_line(text, '6', (uint32_t)words, arena, 0);
    for (i = 0; i < words; i += FRAME_WORDS)
        text = put_line(text, '7', (uint32_t)i, arena + i, frame_words(words, i));
    return code;
}

uint32_t plain_read(const uint8_t *text, size_t bytes, uint32_t *arena, size_t words)
{
    uint32_t decoded[ZV_GREATEST_WORDS];
    uint32_t code;
    size_t found;

    if (!decode(text, bytes, decoded, &found))
        return ZV_FRAME;
    code = found == words ? check_arena(decoded, words) : ZV_LENGTH;
    if (code == ZV_DONE)
        memcpy(arena, decoded, words * sizeof *arena);
    return code;
}

uint32_t plain_check(const uint8_t *spelled, size_t bytes)
{
    uint32_t words[ZV_GREATEST_WORDS];
    size_t count = bytes / WORD_BYTES;
    size_t i;

    if (bytes % WORD_BYTES != 0 || !is_lawful(count))
        return ZV_LENGTH;
    for (i = 0; i < count; i++)
        words[i] = word_at(spelled + WORD_BYTES * i);
    return check_arena(words, count);
}
