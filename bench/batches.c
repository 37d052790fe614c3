/*
 * Measures batches of forty requests against the same requests made singly, through ours and through plain C.
 *
 *     batches [--quick] [--emulated] [--control] [--spoil code|answer|word|record|arena]
 *
 * The words mean what they mean to the program bench; a record is one of a batch, and an arena that of the batches. All
 * requests are compared first: singly through both libraries, call by call, and then each batch with these.
 */
#include <stdio.h>
#include <stdlib.h>
#include <string.h>

#include "comparing.h"
#include "measuring.h"

enum { BATCH, SINGLY, PLAIN };

enum { LENGTHS = 5, MIXES = 2, SEED = 1 };

/* A turn makes so many batches, one after another, of so many records each: whole pages of them. */
enum { BATCHES = 512, RECORDS = 40, REQUESTS = BATCHES * RECORDS };

/* What stands where answers go before the first call, so that one that is not filled in shows. */
#define UNTOLD 0xABABABABu

static const size_t lengths[LENGTHS] = {64, 256, 1024, 4096, 16384};
static const struct mix *const mixes[MIXES] = {&few_moves, &many_moves};
static double seconds_a_row = 1.2;
static int emulated;
static int control;
static uint32_t spoiled_record;
static uint32_t spoiled_word;

/* An arena and the records for each player; they lie alike in their pages. */
static uint32_t arenas[MOST_PLAYERS][ZV_GREATEST_WORDS] __attribute__((aligned(4096)));
static struct zv_request requests[MOST_PLAYERS][REQUESTS] __attribute__((aligned(4096)));
static struct times times;

static void give_up(const char *what, size_t words, size_t batch)
{
    fprintf(stderr, "batches: %s: %lu words, batch %lu\n", what, (unsigned long)words, (unsigned long)batch);
    exit(1);
}

/* Makes one request by a call of its own, and fills in its answer: for a size the words asked for stand in `block`. */
static void fill_in(const struct library *library, uint32_t *arena, size_t words, struct zv_request *request)
{
    uint32_t answer[2] = {0, 0};

    switch (request->kind) {
    case ZV_ALLOC:
        request->code = library->alloc(arena, words, request->n, answer);
        break;
    case ZV_FREE:
        request->code = library->free(arena, words, request->b);
        break;
    case ZV_REALLOC:
        request->code = library->realloc(arena, words, request->b, request->n, answer);
        break;
    case ZV_RESIZE:
        request->code = library->resize(arena, words, request->b, request->n, answer);
        break;
    case ZV_RELOCATE:
        request->code = library->relocate(arena, words, request->b, request->n, answer);
        break;
    case ZV_SIZE:
        request->code = library->size(arena, words, request->b, answer);
        break;
    default:
        request->code = ZV_FRAME;
    }
    request->block = answer[ZV_BLOCK];
    request->granted = answer[ZV_GRANTED];
}

/* Makes the requests of one batch singly. */
static void fill_in_all(const struct library *library, uint32_t *arena, size_t words, struct zv_request *records)
{
    size_t i;

    for (i = 0; i < RECORDS; i++)
        fill_in(library, arena, words, &records[i]);
}

static uint32_t make_singly(const struct library *library, uint32_t *arena, size_t words, struct part *part)
{
    uint32_t code = library->start(arena, words);
    size_t i;

    for (i = 0; i < REQUESTS; i += RECORDS)
        fill_in_all(library, arena, words, part->requests + i);
    return code;
}

static uint32_t make_batches(const struct library *library, uint32_t *arena, size_t words, struct part *part)
{
    uint32_t code = library->start(arena, words);
    size_t i;

    for (i = 0; i < REQUESTS; i += RECORDS)
        zv_batch(arena, words, part->requests + i, RECORDS);
    return code;
}

static const struct turn single_turn = {"singly", make_singly, 0, 0, ZV_DONE, 0, ANYTHING, 0};
static const struct turn batch_turn = {"batch", make_batches, 0, 0, ZV_DONE, 0, ANYTHING, 0};

/* Fills in what is asked: the first steps of a random trace that are requests, so neither its start nor a report. */
static void ask(const struct mix *mix, size_t words)
{
    static const uint32_t kinds[CALL_KINDS] = {
        [ALLOC] = ZV_ALLOC,       [FREE] = ZV_FREE,       [RESIZE] = ZV_RESIZE,
        [RELOCATE] = ZV_RELOCATE, [REALLOC] = ZV_REALLOC, [SIZE] = ZV_SIZE,
    };
    static struct trace trace;
    size_t count = 0, i;

    record_trace(&trace, words, mix, SEED);
    for (i = 0; i < TRACE_STEPS && count < REQUESTS; i++) {
        const struct step *step = &trace.steps[i];
        uint32_t kind = kinds[step->call];

        if (kind != 0)
            requests[BATCH][count++] = (struct zv_request){kind, step->block, step->n, UNTOLD, UNTOLD, UNTOLD};
    }
    if (count < REQUESTS)
        give_up("the trace has too few requests", words, count / RECORDS);
    memcpy(requests[SINGLY], requests[BATCH], sizeof requests[BATCH]);
    memcpy(requests[PLAIN], requests[BATCH], sizeof requests[BATCH]);
}

/* Makes each batch, and its requests singly through both libraries; records and words have to be equal behind it. */
static void compare_batches(const struct mix *mix, size_t words)
{
    size_t i;

    memset(arenas, 0, sizeof arenas);
    begin_comparing(arenas[SINGLY], words, mix->name);
    zv_start(arenas[BATCH], words);
    both.start(arenas[SINGLY], words);
    for (i = 0; i < BATCHES; i++) {
        struct zv_request *batch = requests[BATCH] + i * RECORDS, *singly = requests[SINGLY] + i * RECORDS;

        zv_batch(arenas[BATCH], words, batch, RECORDS);
        fill_in_all(&both, arenas[SINGLY], words, singly);
        batch[RECORDS - 1].granted += spoiled_record;
        arenas[BATCH][words - 1] += spoiled_word;
        if (memcmp(batch, singly, RECORDS * sizeof *batch) != 0)
            give_up("a record is not that of the request made singly", words, i);
        if (memcmp(arenas[BATCH], arenas[SINGLY], words * sizeof arenas[BATCH][0]) != 0)
            give_up("a word is not that after the requests made singly", words, i);
    }
    if (seen.calls != 1 + REQUESTS)
        give_up("other calls were made than should be", words, i);
}

static void print_heading(void)
{
    printf("\nBatches of %d requests, %d of them one after another: random traces, without their reports.\n"
           "Singly, and plain C: a loop in C makes a call for each record through ours, or plain C, and fills it in.\n"
           "A ratio is the middle of all rounds, with their lowest and highest quartile.\n"
           "All records, and all words behind each batch, were compared first.\n",
           RECORDS, BATCHES);
    if (control)
        printf("CONTROL: all three are plain C in that loop, so each ratio should be 1.00.\n");
    printf("\n%-12s%8s%8s%8s%18s%18s", "trace", "words", "chunks", "moves", "batch / singly", "batch / plain C");
    if (!emulated)
        printf("%12s%12s%12s", "batch us", "singly us", "plain C us");
    printf("\n");
}

/* The time of a batch, or of its requests made singly. */
static double microseconds(size_t player)
{
    return time_of(&times, player).middle * 1e6 / BATCHES;
}

static void print_row(const struct mix *mix, size_t words)
{
    static size_t starts[MOST_CHUNKS];
    struct spread singly = ratio_of(&times, BATCH, SINGLY, 0), in_c = ratio_of(&times, BATCH, PLAIN, 0);

    printf("%-12s%8lu%8lu%7lu%%%8.2f %4.2f-%4.2f%8.2f %4.2f-%4.2f", mix->name, (unsigned long)words,
           (unsigned long)chunks_of(arenas[BATCH], words, starts), seen.moves * 100 / REQUESTS, singly.middle,
           singly.low, singly.high, in_c.middle, in_c.low, in_c.high);
    if (!emulated)
        printf("%12.2f%12.2f%12.2f", microseconds(BATCH), microseconds(SINGLY), microseconds(PLAIN));
    printf("\n");
    fflush(stdout);
}

static void run_row(const struct mix *mix, size_t words)
{
    struct player players[MOST_PLAYERS] = {
        {&ours, &batch_turn, arenas[BATCH], words, {.requests = requests[BATCH]}},
        {&ours, &single_turn, arenas[SINGLY], words, {.requests = requests[SINGLY]}},
        {&plain, &single_turn, arenas[PLAIN], words, {.requests = requests[PLAIN]}},
    };

    if (control) {
        players[BATCH].library = &again;
        players[BATCH].turn = &single_turn;
        players[SINGLY].library = &plain;
    }
    ask(mix, words);
    compare_batches(mix, words);
    measure(players, MOST_PLAYERS, seconds_a_row, &times);
    print_row(mix, words);
}

/* Makes a record, or a word, wrong behind each batch; answers 0 where this is the name of neither. */
static int spoil_batches(const char *what)
{
    spoiled_record = strcmp(what, "record") == 0;
    spoiled_word = strcmp(what, "arena") == 0;
    return spoiled_record != 0 || spoiled_word != 0;
}

static void refuse_options(void)
{
    fprintf(stderr, "usage: batches [--quick] [--emulated] [--control] [--spoil code|answer|word|record|arena]\n");
    exit(2);
}

static void read_options(int count, char **options)
{
    int i;

    for (i = 1; i < count; i++) {
        if (strcmp(options[i], "--quick") == 0)
            seconds_a_row = 0.03;
        else if (strcmp(options[i], "--emulated") == 0)
            emulated = 1;
        else if (strcmp(options[i], "--control") == 0)
            control = 1;
        else if (strcmp(options[i], "--spoil") == 0 && i + 1 < count
                 && (spoil_batches(options[i + 1]) || spoil_comparing(options[i + 1])))
            i++;
        else
            refuse_options();
    }
}

int main(int count, char **options)
{
    int mix, i;

    read_options(count, options);
    print_heading();
    for (mix = 0; mix < MIXES; mix++) {
        for (i = 0; i < LENGTHS; i++)
            run_row(mixes[mix], lengths[i]);
    }
    return 0;
}
