/*
 * The calls for C on pictures, for the tests: it speaks as the program picture_cases does (picture_cases.py says how).
 * Its words are the machine's own, on x86-64 the low byte first. It ends where a case is cut short or too long. Around
 * each text, arena and answer lie guard bytes (rooms.h).
 */
#define PROGRAM "c_pictures"

#include <stdbool.h>

#include "rooms.h"

/* What is done wrong on purpose, for the tests to see, with such as -DFAULT=FIELD_OF_REFUSAL. */
enum fault {
    NONE, FIELD_OF_REFUSAL, TEXT_OF_REFUSAL, WORD_OF_REFUSAL, BEFORE_ANSWER, BEHIND_ANSWER, BEFORE_TEXT, BEHIND_TEXT,
    BEFORE_ARENA, BEHIND_ARENA
};
#ifndef FAULT
#define FAULT NONE
#endif

enum call { WRITE = 1, READ, CHECK };
enum { LONGEST_TEXT = 600000, LONGEST_ARENA = 66000 };

/* The words before a text and an arena in a case. */
struct question {
    uint32_t call, bytes, words;
};

/* The words before the text and the arena in a reply. */
struct reply {
    uint32_t code, field;
};

/* How many fields the header says that the answer of a call has. */
static size_t field_count(uint32_t call)
{
    return call == WRITE ? 1 : 0;
}

/* Makes a call and gives its code. */
static uint32_t made(const struct question *asked, uint8_t *text, uint32_t *arena, uint32_t *answer)
{
    switch (asked->call) {
    case WRITE: return zv_write(arena, asked->words, text, asked->bytes, answer);
    case READ: return zv_read(text, asked->bytes, arena, asked->words);
    case CHECK: return zv_check(text, asked->bytes);
    default: return ZV_FRAME;
    }
}

/* Makes a call and, where a fault is asked for, does wrong what a call could. */
static uint32_t made_with_fault(const struct question *asked, uint8_t *text, uint32_t *arena, uint32_t *answer)
{
    uint32_t code = made(asked, text, arena, answer);
    size_t count = field_count(asked->call);
    if (FAULT == FIELD_OF_REFUSAL && count > 0 && code != ZV_DONE)
        answer[0] = 4;
    if (FAULT == TEXT_OF_REFUSAL && code != ZV_DONE && asked->bytes > 0)
        text[asked->bytes - 1] ^= 1;
    if (FAULT == WORD_OF_REFUSAL && code != ZV_DONE && asked->words > 0)
        arena[asked->words - 1] ^= 1;
    if (FAULT == BEFORE_ANSWER && count > 0)
        *(answer - 1) = 0;
    if (FAULT == BEHIND_ANSWER && count > 0)
        answer[count] = 0;
    if (FAULT == BEFORE_TEXT)
        *(text - 1) = 0;
    if (FAULT == BEHIND_TEXT)
        text[asked->bytes] = 0;
    if (FAULT == BEFORE_ARENA)
        *(arena - 1) = 0;
    if (FAULT == BEHIND_ARENA)
        arena[asked->words] = 0;
    return code;
}

/* What a question is replied. */
static struct reply reply_to(const struct question *asked, uint8_t *text, uint32_t *arena)
{
    struct reply told = {0};
    size_t count = field_count(asked->call);
    uint32_t *fields = fresh_room(count * sizeof *fields);
    told.code = made_with_fault(asked, text, arena, fields);
    told.field = count > 0 ? fields[0] : 0;
    end_room("the answer", fields, count * sizeof *fields);
    return told;
}

/* Runs one case; false where no whole case is there. */
static bool run_case(void)
{
    struct question asked;
    if (fread(&asked, sizeof asked, 1, stdin) != 1 || asked.bytes > LONGEST_TEXT || asked.words > LONGEST_ARENA)
        return false;
    size_t arena_bytes = asked.words * sizeof(uint32_t);
    uint8_t *text = fresh_room(asked.bytes);
    uint32_t *arena = fresh_room(arena_bytes);
    bool whole = fread(text, 1, asked.bytes, stdin) == asked.bytes
        && fread(arena, 1, arena_bytes, stdin) == arena_bytes;
    if (whole) {
        struct reply told = reply_to(&asked, text, arena);
        write_bytes(&told, sizeof told);
        write_bytes(text, asked.bytes);
        write_bytes(arena, arena_bytes);
    }
    end_room("the text", text, asked.bytes);
    end_room("the arena", arena, arena_bytes);
    return whole;
}

int main(void)
{
    return run_all(run_case);
}
