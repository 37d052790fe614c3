/*
 * Batches on any arena, for the tests: batches.py says how a case and its reply are written. Words are the machine's
 * own, on x86-64 the low byte first. Each batch is held to the same requests made singly, on a copy: where they come to
 * anything else, the program says so and ends with status 1. It ends where a case is cut short or too long. Around each
 * list and each arena lie guard bytes (rooms.h), more than two records before it and behind it.
 */
#define PROGRAM "c_batch"

#include <stdbool.h>
#include <string.h>

#include "rooms.h"

/* What is done wrong on purpose, for the tests to see, with such as -DFAULT=SKIPS_LAST. */
enum fault {
    NONE, STOPS_AT_REFUSAL, STOPS_AT_UNKNOWN, BACKWARDS, SKIPS_LAST, ONE_TOO_MANY, COUNTS_IN_A_BYTE, NEXT_RECORD,
    BYTE_OF_KIND, SWAPPED_KINDS, SWAPPED_NUMBERS, LOOKS_AT_B, LOOKS_AT_N, LENGTH_FIRST, DAMAGE_FIRST, BLOCK_OF_FREE,
    SIZE_AS_BLOCK, LEAVES_OUT_ASKED, KEEPS_OLD_ANSWER, OVERWRITES_KIND, OVERWRITES_B, OVERWRITES_N, WORD_OF_REFUSAL,
    BEFORE_LIST, BEHIND_LIST, BEFORE_ARENA, BEHIND_ARENA
};
#ifndef FAULT
#define FAULT NONE
#endif

/* Whether a batch is held to the same requests made singly; with -DHELD=false only the model can see what is wrong. */
#ifndef HELD
#define HELD true
#endif

enum { RECORD_WORDS = 6, LONGEST_LIST = 420000, LONGEST_ARENA = 16400 };

/* The words before the list and the arena in a case: how many words each of them has. */
struct question {
    uint32_t list_words, arena_words;
};

/* A list of records, behind which up to five words may be left over, and the arena on which its requests are made. */
struct lab {
    uint32_t *list;
    size_t list_words, count;
    struct zv_request *requests;
    uint32_t *arena;
    size_t words;
};

/* The bytes of so many words. */
static size_t bytes_of(size_t words)
{
    return words * sizeof(uint32_t);
}

/* A lab whose list and arena have so many words, in fresh room. */
static struct lab fresh_lab(size_t list_words, size_t words)
{
    uint32_t *list = fresh_room(bytes_of(list_words)), *arena = fresh_room(bytes_of(words));
    struct lab lab = {list, list_words, list_words / RECORD_WORDS, (struct zv_request *)list, arena, words};
    return lab;
}

/* Looks at the guard bytes of a lab, and gives its room back. */
static void end_lab(struct lab *lab)
{
    end_room("the list", lab->list, bytes_of(lab->list_words));
    end_room("the arena", lab->arena, bytes_of(lab->words));
}

/* The same records and words, in fresh room. */
static struct lab copy_of(const struct lab *lab)
{
    struct lab copy = fresh_lab(lab->list_words, lab->words);
    memcpy(copy.list, lab->list, bytes_of(lab->list_words));
    memcpy(copy.arena, lab->arena, bytes_of(lab->words));
    return copy;
}

/*
 * The code of a request made singly; the block and the granted words go into the answer, which is 0, 0 before. A size
 * has the words asked for in the place of the block, in its answer as in its record.
 */
static uint32_t made_singly(const struct zv_request *asked, uint32_t *arena, size_t words, uint32_t answer[2])
{
    switch (asked->kind) {
    case ZV_ALLOC: return zv_alloc(arena, words, asked->n, answer);
    case ZV_FREE: return zv_free(arena, words, asked->b);
    case ZV_REALLOC: return zv_realloc(arena, words, asked->b, asked->n, answer);
    case ZV_RESIZE: return zv_resize(arena, words, asked->b, asked->n, answer);
    case ZV_RELOCATE: return zv_relocate(arena, words, asked->b, asked->n, answer);
    case ZV_SIZE: return zv_size(arena, words, asked->b, answer);
    default: return ZV_FRAME;
    }
}

/* Makes all requests of a lab singly, and fills in their answers. */
static void run_singly(struct lab *lab)
{
    for (size_t at = 0; at < lab->count; at++) {
        struct zv_request *request = &lab->requests[at];
        uint32_t answer[2] = {0, 0};
        request->code = made_singly(request, lab->arena, lab->words, answer);
        request->block = answer[ZV_BLOCK];
        request->granted = answer[ZV_GRANTED];
    }
}

/* Complains about the part of a batch, by its number, in which it is not the same requests made singly. */
static void complain(const char *part, size_t number)
{
    char where[64];
    snprintf(where, sizeof where, "%s %zu", part, number);
    give_up("a batch is not the same requests made singly: see ", where);
}

/* Holds a batch to the same requests made singly: every word of the list, in records from 1, and of the arena. */
static void hold_to_single(const struct lab *batch, const struct lab *singly)
{
    for (size_t at = 0; at < batch->list_words; at++)
        if (batch->list[at] != singly->list[at])
            complain("record", at / RECORD_WORDS + 1);
    for (size_t at = 0; at < batch->words; at++)
        if (batch->arena[at] != singly->arena[at])
            complain("the arena's word", at);
}

/* How many requests of a list are made, where a fault is asked for. */
static size_t count_with_fault(size_t count)
{
    switch (FAULT) {
    case SKIPS_LAST: return count > 0 ? count - 1 : 0;
    case ONE_TOO_MANY: return count + 1;
    case COUNTS_IN_A_BYTE: return count % 256;
    default: return count;
    }
}

/* What is asked instead, where a fault is asked for. */
static struct zv_request asked_with_fault(struct zv_request asked, size_t words)
{
    uint32_t b = asked.b;
    if (FAULT == BYTE_OF_KIND)
        asked.kind %= 256;
    if (FAULT == SWAPPED_KINDS && (asked.kind == ZV_REALLOC || asked.kind == ZV_RESIZE))
        asked.kind = ZV_REALLOC + ZV_RESIZE - asked.kind;
    if (FAULT == SWAPPED_NUMBERS) {
        asked.b = asked.n;
        asked.n = b;
    }
    if (FAULT == LOOKS_AT_B && asked.kind == ZV_ALLOC && asked.b >= words)
        asked.kind = ZV_FREE;
    if (FAULT == LOOKS_AT_N && (asked.kind == ZV_FREE || asked.kind == ZV_SIZE) && asked.n == 0)
        asked.kind = ZV_ALLOC;
    return asked;
}

/* Spoils what came of a request, where a fault is asked for; `old` is its record before. */
static void spoil_answer(struct zv_request *told, const struct zv_request *old, uint32_t *arena, size_t words)
{
    uint32_t granted = told->granted, ignored[2];
    uint32_t first = FAULT == LENGTH_FIRST ? ZV_LENGTH : FAULT == DAMAGE_FIRST ? ZV_DAMAGED : ZV_FRAME;
    if (told->code == ZV_FRAME && first == zv_size(arena, words, told->b, ignored))
        told->code = first;
    if (FAULT == BLOCK_OF_FREE && told->kind == ZV_FREE && told->code == ZV_DONE)
        told->block = told->b;
    if (FAULT == SIZE_AS_BLOCK && told->kind == ZV_SIZE) {
        told->granted = told->block;
        told->block = granted;
    }
    if (FAULT == LEAVES_OUT_ASKED && told->kind == ZV_SIZE)
        told->block = 0;
    if (FAULT == KEEPS_OLD_ANSWER && told->code != ZV_DONE) {
        told->block = old->block;
        told->granted = old->granted;
    }
    if (FAULT == WORD_OF_REFUSAL && told->code != ZV_DONE && words > 0)
        arena[words - 1] ^= 1;
}

/* Puts an answer into the record at this place of so many and, where a fault is asked for, into another. */
static void put_with_fault(struct zv_request *requests, size_t at, size_t count, const struct zv_request *told)
{
    struct zv_request *request = &requests[at];
    struct zv_request *answered = FAULT == NEXT_RECORD ? &requests[(at + 1) % count] : request;
    answered->code = told->code;
    answered->block = told->block;
    answered->granted = told->granted;
    if (FAULT == OVERWRITES_KIND)
        request->kind = 0;
    if (FAULT == OVERWRITES_B && told->block > 0)
        request->b = told->block;
    if (FAULT == OVERWRITES_N && told->granted > 0)
        request->n = told->granted;
}

/* Makes the requests of a lab one by one, and does wrong what a batch could. */
static void run_with_fault(struct lab *lab)
{
    size_t count = count_with_fault(lab->count);
    for (size_t turn = 0; turn < count; turn++) {
        size_t at = FAULT == BACKWARDS ? count - 1 - turn : turn;
        struct zv_request told = asked_with_fault(lab->requests[at], lab->words);
        zv_batch(lab->arena, lab->words, &told, 1);
        spoil_answer(&told, &lab->requests[at], lab->arena, lab->words);
        put_with_fault(lab->requests, at, count, &told);
        if ((FAULT == STOPS_AT_REFUSAL && told.code != ZV_DONE) || (FAULT == STOPS_AT_UNKNOWN && told.code == ZV_FRAME))
            break;
    }
    if (FAULT == BEFORE_LIST)
        (lab->requests - 1)->granted = 0;
    if (FAULT == BEHIND_LIST)
        lab->requests[lab->count].code = 0;
    if (FAULT == BEFORE_ARENA)
        *(lab->arena - 1) = 0;
    if (FAULT == BEHIND_ARENA)
        lab->arena[lab->words] = 0;
}

/* Runs a batch, and the same requests singly. */
static void run_both(struct lab *batch)
{
    struct lab singly = copy_of(batch);
    if (FAULT == NONE)
        zv_batch(batch->arena, batch->words, batch->requests, batch->count);
    else
        run_with_fault(batch);
    run_singly(&singly);
    if (HELD)
        hold_to_single(batch, &singly);
    end_lab(&singly);
}

/* Runs one case; false where no whole case is there. */
static bool run_case(void)
{
    struct question asked;
    if (fread(&asked, sizeof asked, 1, stdin) != 1
        || asked.list_words > LONGEST_LIST || asked.arena_words > LONGEST_ARENA)
        return false;
    struct lab lab = fresh_lab(asked.list_words, asked.arena_words);
    bool whole = fread(lab.list, sizeof *lab.list, lab.list_words, stdin) == lab.list_words
        && fread(lab.arena, sizeof *lab.arena, lab.words, stdin) == lab.words;
    if (whole) {
        run_both(&lab);
        write_bytes(lab.list, bytes_of(lab.list_words));
        write_bytes(lab.arena, bytes_of(lab.words));
    }
    end_lab(&lab);
    return whole;
}

int main(void)
{
    return run_all(run_case);
}
