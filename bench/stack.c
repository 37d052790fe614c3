/*
 * Measures the stack that calls take, in bytes.
 *
 * A call is made on a painted stack; what the same way to an empty function takes is taken off.
 */
#include <stdio.h>
#include <string.h>

#include "arenas.h"
#include "painting.h"

enum { CALLS = 4, WORDS = ZV_GREATEST_WORDS };

/* The call that is made on the painted stack. */
struct errand {
    const struct library *library;
    struct step step;
};

static uint32_t filled[WORDS];
static uint32_t arena[WORDS];
static struct errand errand;

static void run_errand(void)
{
    uint32_t answer[4];

    make_step(errand.library, arena, WORDS, &errand.step, answer);
}

/* The depth of a call on the filled arena. It is made once before, so that the loader's work is not counted. */
static size_t depth_of(const struct library *library, struct step step)
{
    errand = (struct errand){library, step};
    memcpy(arena, filled, sizeof arena);
    run_errand();
    memcpy(arena, filled, sizeof arena);
    return painted_over(run_errand);
}

static size_t stack_of(const struct library *library, struct step step)
{
    return depth_of(library, step) - depth_of(&idle, step);
}

static void print_bytes(const char *name, const struct library *library, const struct step steps[CALLS])
{
    int i;

    printf("  %-18s", name);
    for (i = 0; i < CALLS; i++)
        printf("%10lu", (unsigned long)stack_of(library, steps[i]));
    printf("\n");
}

static void print_bytes_for_each(const char *name, const struct step steps[CALLS], uint32_t count)
{
    int i;

    if (count == 0)
        return;
    printf("  %-18s", name);
    for (i = 0; i < CALLS; i++)
        printf("%10.1f", (double)stack_of(&ours, steps[i]) / count);
    printf("\n");
}

/* The table of one filling: size, alloc, free and realloc, of the last block or of two words. */
static void run_filling(const char *title, enum filling filling)
{
    static size_t starts[MOST_CHUNKS];
    struct step steps[CALLS] = {{SIZE, 0, 0}, {ALLOC, 0, 2}, {FREE, 0, 0}, {REALLOC, 0, 0}};
    uint32_t report[4], sized[2];
    size_t last;
    int i;

    fill_arena(filled, WORDS, filling, MANY);
    plain.report(filled, WORDS, report);
    last = chunks_of(filled, WORDS, starts) - 1;
    while (filled[starts[last] + 1] < LIVE_MARK)
        last--;
    plain.size(filled, WORDS, (uint32_t)starts[last] + HEADER, sized);
    for (i = 0; i < CALLS; i++)
        steps[i].block = (uint32_t)starts[last] + HEADER;
    steps[CALLS - 1].n = sized[ZV_GRANTED] + 2;
    printf("\n%s: %u chunks, %u of them free\n\n%-20s%10s%10s%10s%10s\n", title,
           report[ZV_LIVE_BLOCKS] + report[ZV_FREE_CHUNKS], report[ZV_FREE_CHUNKS], "", "size", "alloc", "free",
           "realloc");
    print_bytes("ours", &ours, steps);
    print_bytes_for_each("for each chunk", steps, report[ZV_LIVE_BLOCKS] + report[ZV_FREE_CHUNKS]);
    print_bytes_for_each("for each free one", steps, report[ZV_FREE_CHUNKS]);
    print_bytes("plain C", &plain, steps);
}

int main(void)
{
    printf("\nStack of a call in bytes, beyond what an empty function takes; arenas of %d words\n", WORDS);
    run_filling("All live", ALL_LIVE);
    run_filling("Every second chunk free", EVERY_SECOND);
    run_filling("Usual use", USUAL_USE);
    return 0;
}
