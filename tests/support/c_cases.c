/*
 * The calls for C on any arena, for the tests: it speaks as the program cases does (cases.py says how). Its words are
 * the machine's own, on x86-64 the low byte first. It ends where a case is cut short or too long. Around each arena,
 * each answer and each rover lie guard bytes (rooms.h).
 */
#define PROGRAM "c_cases"

#include <stdbool.h>
#include <string.h>

#include "rooms.h"

/* What is done wrong on purpose, for the tests to see, with such as -DFAULT=SWAPPED_FIELDS. */
enum fault {
    NONE, SWAPPED_FIELDS, FIELD_OF_REFUSAL, BEFORE_ANSWER, BEHIND_ANSWER, BEFORE_ARENA, BEHIND_ARENA, BEST_AS_FIRST,
    NEXT_AS_FIRST, ROVER_IGNORED, ROVER_KEPT, ROVER_AT_BLOCK, ROVER_AT_GRANT, ROVER_OF_REFUSAL, BEFORE_ROVER,
    BEHIND_ROVER, GRANTED_TWICE, ASKED_TWICE
};
#ifndef FAULT
#define FAULT NONE
#endif

enum call { START = 1, ALLOC, FREE, REALLOC, REPORT, SIZE, VIEW, VIEW_MUT, RESIZE, RELOCATE, ALLOC_BEST, ALLOC_NEXT };
enum { FIELDS = 4, LONGEST_CASE = 16400, HEADER_WORDS = 2 };

/* The field in which the reply to an alloc_next has the rover after the call, behind those of the answer. */
enum { ROVER_FIELD = 2 };

/* The words before an arena in a case; b is the rover of an alloc_next. */
struct question {
    uint32_t call, b, n, words;
};

/* The words before the part and the arena in a reply. */
struct reply {
    uint32_t code, fields[FIELDS], part_words;
};

/* How many fields the header says that the answer of a call has; a view asks for the size. */
static size_t field_count(uint32_t call)
{
    switch (call) {
    case ALLOC: case ALLOC_BEST: case ALLOC_NEXT: case RESIZE: case RELOCATE: case REALLOC: return 2;
    case SIZE: case VIEW: case VIEW_MUT: return 2;
    case REPORT: return 4;
    default: return 0;
    }
}

/* The call that is made: the one that is asked or, where that is the fault, another. */
static uint32_t call_made(uint32_t asked)
{
    if ((FAULT == BEST_AS_FIRST && asked == ALLOC_BEST) || (FAULT == NEXT_AS_FIRST && asked == ALLOC_NEXT))
        return ALLOC;
    return asked;
}

/* Makes a call and gives its code. */
static uint32_t made(const struct question *asked, uint32_t *arena, struct zv_rover *rover, uint32_t *answer)
{
    size_t words = asked->words;
    switch (call_made(asked->call)) {
    case START: return zv_start(arena, words);
    case ALLOC: return zv_alloc(arena, words, asked->n, answer);
    case ALLOC_BEST: return zv_alloc_best(arena, words, asked->n, answer);
    case ALLOC_NEXT: return zv_alloc_next(arena, words, rover, asked->n, answer);
    case FREE: return zv_free(arena, words, asked->b);
    case REALLOC: return zv_realloc(arena, words, asked->b, asked->n, answer);
    case REPORT: return zv_report(arena, words, answer);
    case SIZE: case VIEW: case VIEW_MUT: return zv_size(arena, words, asked->b, answer);
    case RESIZE: return zv_resize(arena, words, asked->b, asked->n, answer);
    case RELOCATE: return zv_relocate(arena, words, asked->b, asked->n, answer);
    default: return ZV_FRAME;
    }
}

/* Makes a call and, where a fault is asked for, does wrong with the rover what an alloc_next could. */
static uint32_t made_with_rover(const struct question *asked, uint32_t *arena, struct zv_rover *rover, uint32_t *answer)
{
    rover->at = FAULT == ROVER_IGNORED ? 0 : asked->b;
    uint32_t code = made(asked, arena, rover, answer);
    if (asked->call != ALLOC_NEXT)
        return code;
    if (FAULT == ROVER_OF_REFUSAL && code != ZV_DONE)
        rover->at = 0;
    if (FAULT == ROVER_KEPT || (FAULT == ROVER_IGNORED && code != ZV_DONE))
        rover->at = asked->b;
    if (FAULT == ROVER_AT_BLOCK && code == ZV_DONE)
        rover->at = answer[ZV_BLOCK];
    if (FAULT == ROVER_AT_GRANT && code == ZV_DONE)
        rover->at = answer[ZV_BLOCK] - HEADER_WORDS;
    if (FAULT == BEFORE_ROVER)
        (rover - 1)->at = 0;
    if (FAULT == BEHIND_ROVER)
        (rover + 1)->at = 0;
    return code;
}

/* Makes a call and, where a fault is asked for, does wrong what a call could. */
static uint32_t made_with_fault(const struct question *asked, uint32_t *arena, struct zv_rover *rover, uint32_t *answer)
{
    uint32_t code = made_with_rover(asked, arena, rover, answer);
    size_t count = field_count(asked->call);
    uint32_t first = count > 0 ? answer[0] : 0;
    if (FAULT == SWAPPED_FIELDS && count == 2) {
        answer[0] = answer[1];
        answer[1] = first;
    }
    if (FAULT == GRANTED_TWICE && asked->call == SIZE)
        answer[ZV_ASKED] = answer[ZV_GRANTED];
    if (FAULT == ASKED_TWICE && asked->call == VIEW)
        answer[ZV_GRANTED] = answer[ZV_ASKED];
    if (FAULT == FIELD_OF_REFUSAL && count > 0 && code != ZV_DONE)
        answer[count - 1] = 4;
    if (FAULT == BEFORE_ANSWER && count > 0)
        *(answer - 1) = 0;
    if (FAULT == BEHIND_ANSWER && count > 0)
        answer[count] = 0;
    if (FAULT == BEFORE_ARENA)
        *(arena - 1) = 0;
    if (FAULT == BEHIND_ARENA)
        arena[asked->words] = 0;
    return code;
}

/* What a question is replied. A view is always done: where the size is refused, its part is empty. */
static struct reply reply_to(const struct question *asked, uint32_t *arena)
{
    struct reply told = {0};
    size_t count = field_count(asked->call);
    uint32_t *fields = fresh_room(count * sizeof *fields);
    struct zv_rover *rover = fresh_room(sizeof *rover);
    uint32_t code = made_with_fault(asked, arena, rover, fields);
    if (asked->call == VIEW || asked->call == VIEW_MUT) {
        told.part_words = code == ZV_DONE ? fields[ZV_GRANTED] : 0;
    } else {
        told.code = code;
        memcpy(told.fields, fields, count * sizeof *fields);
    }
    if (asked->call == ALLOC_NEXT)
        told.fields[ROVER_FIELD] = rover->at;
    end_room("the answer", fields, count * sizeof *fields);
    end_room("the rover", rover, sizeof *rover);
    return told;
}

/* Runs one case; false where no whole case is there. */
static bool run_case(void)
{
    struct question asked;
    if (fread(&asked, sizeof asked, 1, stdin) != 1 || asked.words > LONGEST_CASE)
        return false;
    size_t bytes = asked.words * sizeof(uint32_t);
    uint32_t *arena = fresh_room(bytes);
    bool whole = fread(arena, 1, bytes, stdin) == bytes;
    if (whole) {
        struct reply told = reply_to(&asked, arena);
        uint32_t *part = told.part_words > 0 ? arena + asked.b : arena;
        write_bytes(&told, sizeof told);
        write_bytes(part, told.part_words * sizeof *part);
        for (size_t at = 0; asked.call == VIEW_MUT && at < told.part_words; at++)
            part[at] = asked.n;
        write_bytes(arena, bytes);
    }
    end_room("the arena", arena, bytes);
    return whole;
}

int main(void)
{
    return run_all(run_case);
}
