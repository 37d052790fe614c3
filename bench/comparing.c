/* Makes each call through both libraries: codes, all fields of the answers, words and texts have to be equal. */
#include "comparing.h"

#include <stdio.h>
#include <stdlib.h>
#include <string.h>

#include "plain.h"

#define UNTOLD 0xABABABABu

enum { CALLS_BEFORE_SPOILING = 300 };

/* What came of a call: its code and the fields of its answer; those that it has not stay as they were. */
struct outcome {
    uint32_t code;
    uint32_t fields[4];
};

static const struct outcome nothing_told = {UNTOLD, {UNTOLD, UNTOLD, UNTOLD, UNTOLD}};

/* What `spoil_comparing` makes wrong. */
enum spoiled { NOTHING, A_CODE, AN_ANSWER, A_WORD, A_TEXT, SPOILED_KINDS };

static const char *const spoiled_names[SPOILED_KINDS] = {"nothing", "code", "answer", "word", "text"};

static uint32_t copy[ZV_GREATEST_WORDS];
static uint8_t copied_text[LONGEST_TEXT];
static const uint32_t *compared_arena;
static const char *compared_subject;
static enum spoiled spoiled;
static unsigned long calls_in_all;

struct seen seen;

void begin_comparing(const uint32_t *arena, size_t words, const char *subject)
{
    memcpy(copy, arena, words * sizeof *arena);
    compared_arena = arena;
    compared_subject = subject;
    seen = (struct seen){0, 0};
}

int spoil_comparing(const char *what)
{
    for (spoiled = SPOILED_KINDS - 1; spoiled > NOTHING; spoiled--) {
        if (strcmp(what, spoiled_names[spoiled]) == 0)
            return 1;
    }
    return 0;
}

/* What the copy has for a part of the arena that is compared. */
static uint32_t *copy_of(const uint32_t *arena)
{
    return copy + (arena - compared_arena);
}

/* Whether this is to be made wrong now; once it was, nothing is. */
static int is_due(enum spoiled what)
{
    if (spoiled != what || calls_in_all < CALLS_BEFORE_SPOILING)
        return 0;
    spoiled = NOTHING;
    return 1;
}

static void tell(const char *who, const struct outcome *outcome)
{
    int i;

    fprintf(stderr, "  %s: code %u, answer", who, outcome->code);
    for (i = 0; i < 4 && outcome->fields[i] != UNTOLD; i++)
        fprintf(stderr, " %u", outcome->fields[i]);
    fprintf(stderr, "\n");
}

static void tell_difference(const char *call, const struct outcome *mine, const struct outcome *theirs)
{
    fflush(stdout);
    fprintf(stderr, "\nbench: ours and plain C differ: %s, call %lu, %s\n", compared_subject, seen.calls, call);
    tell("ours", mine);
    tell("plain C", theirs);
}

/* Ends the program where a word differs. */
static void compare_words(const char *call, const uint32_t *arena, size_t words, const struct outcome *mine,
                          const struct outcome *theirs)
{
    const uint32_t *copied = copy_of(arena);
    size_t i = 0;

    if (memcmp(arena, copied, words * sizeof *arena) == 0)
        return;
    while (arena[i] == copied[i])
        i++;
    tell_difference(call, mine, theirs);
    fprintf(stderr, "  word %lu of the arena afterwards: ours %u, plain C %u\n", (unsigned long)i, arena[i], copied[i]);
    exit(1);
}

/* Ends the program where a byte of the text that was written differs. */
static void compare_texts(const uint8_t *text, size_t bytes, const struct outcome *mine, const struct outcome *theirs)
{
    size_t i = 0;

    if (memcmp(text, copied_text, bytes) == 0)
        return;
    while (text[i] == copied_text[i])
        i++;
    tell_difference("write", mine, theirs);
    fprintf(stderr, "  byte %lu of the text afterwards: ours %u, plain C %u\n", (unsigned long)i, text[i],
            copied_text[i]);
    exit(1);
}

/* Ends the program where the two outcomes or the two arenas differ; otherwise hands the answer on. */
static uint32_t agreed(const char *call, const uint32_t *arena, size_t words, const struct outcome *mine,
                       struct outcome *theirs)
{
    seen.calls++;
    calls_in_all++;
    theirs->code += is_due(A_CODE);
    theirs->fields[0] += is_due(AN_ANSWER);
    if (words > 5)
        copy_of(arena)[5] += is_due(A_WORD);
    if (memcmp(mine, theirs, sizeof *mine) != 0) {
        tell_difference(call, mine, theirs);
        exit(1);
    }
    compare_words(call, arena, words, mine, theirs);
    return mine->code;
}

static uint32_t both_start(uint32_t *arena, size_t words)
{
    struct outcome mine = nothing_told, theirs = nothing_told;

    mine.code = zv_start(arena, words);
    theirs.code = plain_start(copy_of(arena), words);
    return agreed("start", arena, words, &mine, &theirs);
}

static uint32_t both_alloc(uint32_t *arena, size_t words, uint32_t n, uint32_t answer[2])
{
    struct outcome mine = nothing_told, theirs = nothing_told;

    mine.code = zv_alloc(arena, words, n, mine.fields);
    theirs.code = plain_alloc(copy_of(arena), words, n, theirs.fields);
    memcpy(answer, mine.fields, 2 * sizeof *answer);
    return agreed("alloc", arena, words, &mine, &theirs);
}

static uint32_t both_alloc_best(uint32_t *arena, size_t words, uint32_t n, uint32_t answer[2])
{
    struct outcome mine = nothing_told, theirs = nothing_told;

    mine.code = zv_alloc_best(arena, words, n, mine.fields);
    theirs.code = plain_alloc_best(copy_of(arena), words, n, theirs.fields);
    memcpy(answer, mine.fields, 2 * sizeof *answer);
    return agreed("alloc_best", arena, words, &mine, &theirs);
}

/* Where the rover is afterwards counts as one more field. */
static uint32_t both_alloc_next(uint32_t *arena, size_t words, struct zv_rover *rover, uint32_t n, uint32_t answer[2])
{
    struct outcome mine = nothing_told, theirs = nothing_told;
    struct zv_rover copied = *rover;

    mine.code = zv_alloc_next(arena, words, rover, n, mine.fields);
    theirs.code = plain_alloc_next(copy_of(arena), words, &copied, n, theirs.fields);
    memcpy(answer, mine.fields, 2 * sizeof *answer);
    mine.fields[2] = rover->at;
    theirs.fields[2] = copied.at;
    return agreed("alloc_next", arena, words, &mine, &theirs);
}

static uint32_t both_free(uint32_t *arena, size_t words, uint32_t b)
{
    struct outcome mine = nothing_told, theirs = nothing_told;

    mine.code = zv_free(arena, words, b);
    theirs.code = plain_free(copy_of(arena), words, b);
    return agreed("free", arena, words, &mine, &theirs);
}

static uint32_t both_resize(uint32_t *arena, size_t words, uint32_t b, uint32_t n, uint32_t answer[2])
{
    struct outcome mine = nothing_told, theirs = nothing_told;

    mine.code = zv_resize(arena, words, b, n, mine.fields);
    theirs.code = plain_resize(copy_of(arena), words, b, n, theirs.fields);
    memcpy(answer, mine.fields, 2 * sizeof *answer);
    return agreed("resize", arena, words, &mine, &theirs);
}

static uint32_t both_relocate(uint32_t *arena, size_t words, uint32_t b, uint32_t n, uint32_t answer[2])
{
    struct outcome mine = nothing_told, theirs = nothing_told;

    mine.code = zv_relocate(arena, words, b, n, mine.fields);
    theirs.code = plain_relocate(copy_of(arena), words, b, n, theirs.fields);
    memcpy(answer, mine.fields, 2 * sizeof *answer);
    seen.moves += mine.code == ZV_DONE;
    return agreed("relocate", arena, words, &mine, &theirs);
}

static uint32_t both_realloc(uint32_t *arena, size_t words, uint32_t b, uint32_t n, uint32_t answer[2])
{
    struct outcome mine = nothing_told, theirs = nothing_told;

    mine.code = zv_realloc(arena, words, b, n, mine.fields);
    theirs.code = plain_realloc(copy_of(arena), words, b, n, theirs.fields);
    memcpy(answer, mine.fields, 2 * sizeof *answer);
    seen.moves += mine.code == ZV_DONE && answer[ZV_BLOCK] != b;
    return agreed("realloc", arena, words, &mine, &theirs);
}

static uint32_t both_size(const uint32_t *arena, size_t words, uint32_t b, uint32_t answer[2])
{
    struct outcome mine = nothing_told, theirs = nothing_told;

    mine.code = zv_size(arena, words, b, mine.fields);
    theirs.code = plain_size(copy_of(arena), words, b, theirs.fields);
    memcpy(answer, mine.fields, 2 * sizeof *answer);
    return agreed("size", arena, words, &mine, &theirs);
}

static uint32_t both_report(const uint32_t *arena, size_t words, uint32_t answer[4])
{
    struct outcome mine = nothing_told, theirs = nothing_told;

    mine.code = zv_report(arena, words, mine.fields);
    theirs.code = plain_report(copy_of(arena), words, theirs.fields);
    memcpy(answer, mine.fields, sizeof mine.fields);
    return agreed("report", arena, words, &mine, &theirs);
}

static uint32_t both_write(const uint32_t *arena, size_t words, uint8_t *text, size_t bytes, uint32_t answer[1])
{
    struct outcome mine = nothing_told, theirs = nothing_told;

    if (bytes > LONGEST_TEXT)
        abort();
    memcpy(copied_text, text, bytes);
    mine.code = zv_write(arena, words, text, bytes, mine.fields);
    theirs.code = plain_write(copy_of(arena), words, copied_text, bytes, theirs.fields);
    memcpy(answer, mine.fields, sizeof *answer);
    agreed("write", arena, words, &mine, &theirs);
    if (bytes > 0)
        copied_text[0] += is_due(A_TEXT);
    compare_texts(text, bytes, &mine, &theirs);
    return mine.code;
}

static uint32_t both_read(const uint8_t *text, size_t bytes, uint32_t *arena, size_t words)
{
    struct outcome mine = nothing_told, theirs = nothing_told;

    mine.code = zv_read(text, bytes, arena, words);
    theirs.code = plain_read(text, bytes, copy_of(arena), words);
    return agreed("read", arena, words, &mine, &theirs);
}

static uint32_t both_check(const uint8_t *spelled, size_t bytes)
{
    struct outcome mine = nothing_told, theirs = nothing_told;

    mine.code = zv_check(spelled, bytes);
    theirs.code = plain_check(spelled, bytes);
    return agreed("check", compared_arena, 0, &mine, &theirs);
}

const struct library both = {
    both_start,   both_alloc, both_alloc_best, both_alloc_next, both_free, both_resize, both_relocate,
    both_realloc, both_size,  both_report,     both_write,      both_read, both_check,
};
