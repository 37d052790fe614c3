/*
 * The allocator of the logger board, for programs in C and C++.
 *
 * The caller lends an arena: a run of 32-bit words. The calls cut it into blocks and take them back. Link with
 * libzandervlecht.a; the rules are on the page docs/RULES.md and, as definitions, in crates/layout/specs and
 * crates/rules/specs. What a call costs in time and in stack is on the page docs/COST.md.
 *
 * What a call does. It is done exactly as the rules say, and returns ZV_DONE; or it returns the reason why it says no,
 * and then not one word of the arena and not one byte of the text has changed, the rover is where it was, and every
 * field of the answer is 0. A call takes any number, in a rover too, an arena of any length that holds any words,
 * damaged ones included, a text of any length that holds any bytes, and a list of any length that holds any records.
 * zv_batch is as many calls as its list has records, and returns nothing: each record has the code and the fields of
 * its own answer.
 *
 * What the caller must see to, since a C function cannot:
 *   - arena points to that many words, aligned as uint32_t is, and is no null pointer, even where words is 0;
 *   - text and spelled point to that many bytes, and are no null pointers, even where bytes is 0;
 *   - requests points to that many records, aligned as uint32_t is, and is no null pointer, even where count is 0;
 *   - rover points to one struct zv_rover, aligned as uint32_t is, and is no null pointer;
 *   - answer points to as many words as the brackets say;
 *   - arena, text, requests, rover and answer share no memory;
 *   - nobody else reads or writes what they point to during the call.
 *
 * Who owns what. Arena, text, requests, rover and answer are the caller's. The library keeps nothing from one call to
 * the next and has no memory of its own: all that it knows is in the arena and, for zv_alloc_next, in the rover. So
 * there can be several arenas, and one that was copied as a whole, or read from its picture, is as good as the first.
 *
 * A block is named by a number: the word of the arena at which it begins. Its words are arena + block up to, but not
 * with, arena + block + granted, where granted is what zv_size answers at ZV_GRANTED; they belong to whoever asked for
 * the block, from the grant until it is freed or granted anew, or zv_start or zv_read make the whole arena anew. All
 * other words of the arena are the library's: to store there can damage the arena, and every call on it but these two
 * then says so; or it is not noticed, and a call answers what nobody asked for.
 *
 * Three fits. A new block is cut from a free chunk that is long enough; the fit says which one, where there are more:
 * with zv_alloc it is the lowest of them (first fit), with zv_alloc_best the smallest (best fit), with zv_alloc_next
 * the one that comes first from the rover on (next fit). In all else the three are one call: on the same arena they say
 * no to the same requests, and they cut and answer alike. What zv_relocate, zv_realloc and zv_batch grant is of the
 * first fit. The page docs/FITS.md shows the three side by side.
 *
 * When a request is sure. Whatever was granted and freed before: a request for n words that is neither ZV_ZERO nor
 * ZV_TOO_LARGE is done, by each of the three fits, where the free words that zv_report answers are more than n, rounded
 * up to even, times one more than its live blocks. The page docs/BOARD.md has an example, and a table of how many
 * blocks are always to be had.
 *
 * A picture is an arena as text, in lines of hexadecimal digits, each ended by LF; docs/BOARD.md shows one. The first
 * line has the number of words, and each other line eight of them, the last what is left. A line takes seven bytes and,
 * for each of its words, eight more.
 */
#ifndef ZANDERVLECHT_H
#define ZANDERVLECHT_H

#include <stddef.h>
#include <stdint.h>

#ifdef __cplusplus
extern "C" {
#endif

/* The least and the greatest number of words of an arena; between them every even number will do. */
#define ZV_LEAST_WORDS 6
#define ZV_GREATEST_WORDS 16384

/*
 * What a call returns, or has in its record of a batch. Where more than one reason applies, ZV_FRAME is given or,
 * without it, the lowest number.
 */
enum zv_code {
    /* The call was done. */
    ZV_DONE = 0,
    /* The number of words is odd, or below ZV_LEAST_WORDS, or above ZV_GREATEST_WORDS, or not that of the picture. */
    ZV_LENGTH = 1,
    /* The words are no sound arena: never started, stored to where nobody may, or with a block of an older library. */
    ZV_DAMAGED = 2,
    /* No live block has this number. */
    ZV_NOT_A_BLOCK = 3,
    /* The request is for no words. */
    ZV_ZERO = 4,
    /* The request is for more words than the longest block of such an arena has. */
    ZV_TOO_LARGE = 5,
    /* No free chunk is long enough for the request. */
    ZV_NO_ROOM = 6,
    /* A line cannot be read, or a kind is unknown: zv_read, zv_batch and the line program say so, and no other call. */
    ZV_FRAME = 7,
    /* The block cannot stay where it is: zv_resize says so, alone or in a batch, and no other call. */
    ZV_WOULD_MOVE = 8,
    /* The text is too short for the picture: zv_write says so, and no other call. */
    ZV_TEXT_ROOM = 11
};

/* The fields of the answer of zv_alloc, zv_alloc_best, zv_alloc_next, zv_resize, zv_relocate and zv_realloc. */
enum zv_granted {
    /* The block's number. */
    ZV_BLOCK = 0,
    /* Its granted words: as many as were asked for, or a few more. */
    ZV_GRANTED = 1
};

/* The first field of the answer of zv_size; behind it come the granted words, at ZV_GRANTED as after a grant. */
enum zv_sized {
    /* The words that were asked for when the block was granted last, which a picture keeps as well. */
    ZV_ASKED = 0
};

/* The fields of the answer of zv_report. */
enum zv_reported {
    /* The words of all free chunks, their headers counted. */
    ZV_FREE_WORDS = 0,
    /* The largest request that zv_alloc would grant now, 0 if none. */
    ZV_LARGEST = 1,
    /* How many blocks are live. */
    ZV_LIVE_BLOCKS = 2,
    /* How many free chunks there are. */
    ZV_FREE_CHUNKS = 3
};

/* The kinds of request in a batch: the call that each is, the numbers that it takes, and those that it answers. */
enum zv_kind {
    /* It is zv_alloc with n, and answers block and granted. */
    ZV_ALLOC = 1,
    /* It is zv_free with b, and answers the code alone. */
    ZV_FREE = 2,
    /* It is zv_realloc with b and n, and answers block and granted. */
    ZV_REALLOC = 3,
    /* It is zv_resize with b and n, and answers block and granted. */
    ZV_RESIZE = 4,
    /* It is zv_relocate with b and n, and answers block and granted. */
    ZV_RELOCATE = 5,
    /* It is zv_size with b, and answers the words asked for, in block, and granted. */
    ZV_SIZE = 6
};

/*
 * One request of a batch: the caller fills in what is asked, kind, b and n, and zv_batch fills in what is answered. It
 * has six words, in this order, with nothing between them.
 */
struct zv_request {
    /* One of enum zv_kind; any other number is refused with ZV_FRAME before all else, whatever the arena is. */
    uint32_t kind;
    /* The block's number; a kind that does not take it ignores it. */
    uint32_t b;
    /* The number of words; a kind that does not take it ignores it. */
    uint32_t n;
    /* The code, as the call would return it. */
    uint32_t code;
    /* The block's number after the call or, for ZV_SIZE, the words asked for; 0 for ZV_FREE, and in a refusal. */
    uint32_t block;
    /* The granted words, 0 where the kind does not answer them or the request is refused. */
    uint32_t granted;
};

/*
 * Where zv_alloc_next begins to search. A new one is 0. It is no block, so there is nothing to free; and no other call
 * looks at it. Any number will do, one that is no chunk's or lies outside the arena too: it only says which chunk is
 * found, never whether. As a rule each arena has a rover of its own, but that is the caller's business.
 */
struct zv_rover {
    /* The word from which on the search begins: where the free chunk started that the last granted call found. */
    uint32_t at;
};

/* Makes the whole arena one free chunk, whatever words it held. Returns ZV_DONE or ZV_LENGTH. */
uint32_t zv_start(uint32_t *arena, size_t words);

/* Grants a block of at least n words, from the lowest free chunk that is long enough. What lay there is still there. */
uint32_t zv_alloc(uint32_t *arena, size_t words, uint32_t n, uint32_t answer[2]);

/* Does as zv_alloc does, but takes the smallest free chunk that is long enough, and of equals the lowest. */
uint32_t zv_alloc_best(uint32_t *arena, size_t words, uint32_t n, uint32_t answer[2]);

/*
 * Does as zv_alloc does, but takes the lowest free chunk that is long enough and starts at the rover's word or above it
 * or, if there is none, the lowest that is long enough. A call that is granted moves the rover to the word where that
 * chunk started, whichever of its words are granted; a call that is refused leaves it.
 */
uint32_t zv_alloc_next(uint32_t *arena, size_t words, struct zv_rover *rover, uint32_t n, uint32_t answer[2]);

/* Frees block b. */
uint32_t zv_free(uint32_t *arena, size_t words, uint32_t b);

/* Makes block b one of at least n words where it stands; it keeps its number. */
uint32_t zv_resize(uint32_t *arena, size_t words, uint32_t b, uint32_t n, uint32_t answer[2]);

/* Moves block b to a new block of at least n words, with as many of its words as both have. Its number changes. */
uint32_t zv_relocate(uint32_t *arena, size_t words, uint32_t b, uint32_t n, uint32_t answer[2]);

/* Makes block b one of at least n words: where it stands or, if it would have to move, elsewhere. */
uint32_t zv_realloc(uint32_t *arena, size_t words, uint32_t b, uint32_t n, uint32_t answer[2]);

/* Answers the words that were asked for when block b was granted last, and its granted words. */
uint32_t zv_size(const uint32_t *arena, size_t words, uint32_t b, uint32_t answer[2]);

/* Answers the free words, the largest request, the live blocks and the free chunks. */
uint32_t zv_report(const uint32_t *arena, size_t words, uint32_t answer[4]);

/* Writes the arena's picture to the start of the text, and answers its length in bytes. The rest of the text stays. */
uint32_t zv_write(const uint32_t *arena, size_t words, uint8_t *text, size_t bytes, uint32_t answer[1]);

/*
 * Reads a picture, which has to be the whole text and to show as many words as the arena has: these are then the
 * arena's. What it held before does not matter; ZV_DAMAGED is said of the picture's words.
 */
uint32_t zv_read(const uint8_t *text, size_t bytes, uint32_t *arena, size_t words);

/*
 * Says whether these bytes spell a sound arena, four to a word, the low byte first. Returns ZV_DONE, ZV_DAMAGED or
 * ZV_LENGTH, the last also where the bytes make no whole number of words.
 */
uint32_t zv_check(const uint8_t *spelled, size_t bytes);

/*
 * Makes the calls of a list of requests, in order, each on the arena as the ones before it left it, and fills in the
 * answer of each in its own record, whatever stood there; what is asked stays. All is as if the calls were made singly:
 * a request that is refused changes nothing and stops nothing, and an empty list changes nothing.
 */
void zv_batch(uint32_t *arena, size_t words, struct zv_request *requests, size_t count);

#ifdef __cplusplus
}
#endif

#endif
