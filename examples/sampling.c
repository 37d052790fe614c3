/*
 * A program to start from: two sensors are sampled into buffers of one arena until it is full.
 * To build it and run it: bash examples/run
 */
#include <inttypes.h>
#include <stdbool.h>
#include <stdio.h>
#include <stdlib.h>

#include "zandervlecht.h"

/* The words of the arena, and by how many a buffer grows. */
enum { WORDS = 64, STEP = 8 };

/* All that the buffers have. */
static uint32_t arena[WORDS];

/* A sensor's buffer: its block, the words granted to it, and how many of them hold a reading. */
struct buffer {
    const char *sensor;
    uint32_t block;
    uint32_t granted;
    uint32_t readings;
};

/* What the reasons are called, by their numbers. */
static const char *const reasons[] = {
    [ZV_LENGTH] = "Length", [ZV_DAMAGED] = "Damaged", [ZV_NOT_A_BLOCK] = "NotABlock", [ZV_ZERO] = "Zero",
    [ZV_TOO_LARGE] = "TooLarge", [ZV_NO_ROOM] = "NoRoom", [ZV_FRAME] = "Frame", [ZV_WOULD_MOVE] = "WouldMove",
    [ZV_TEXT_ROOM] = "TextRoom",
};

/* Whether a call was done: every code comes here, and of a refusal this tells the reason. */
static bool done(const char *call, uint32_t code)
{
    if (code != ZV_DONE)
        printf("%s was refused: %s\n", call, reasons[code]);
    return code == ZV_DONE;
}

/* Takes the block from an answer: it may have moved, and then neither its old number nor an old pointer is good. */
static void take(struct buffer *buffer, const uint32_t answer[2])
{
    buffer->block = answer[ZV_BLOCK];
    buffer->granted = answer[ZV_GRANTED];
    printf("%s has block %" PRIu32 " of %" PRIu32 " words\n", buffer->sensor, buffer->block, buffer->granted);
}

/* Asks for the buffer's first block. */
static bool begin(struct buffer *buffer)
{
    uint32_t answer[2];
    if (!done("zv_alloc", zv_alloc(arena, WORDS, STEP, answer)))
        return false;
    take(buffer, answer);
    return true;
}

/* Makes the buffer longer. */
static bool grow(struct buffer *buffer)
{
    uint32_t answer[2];
    if (!done("zv_realloc", zv_realloc(arena, WORDS, buffer->block, buffer->granted + STEP, answer)))
        return false;
    take(buffer, answer);
    return true;
}

/* Stores a reading: a full buffer grows first and, where it cannot, keeps the readings that it has. */
static bool store(struct buffer *buffer, uint32_t reading)
{
    if (buffer->readings == buffer->granted && !grow(buffer))
        return false;
    uint32_t *words = arena + buffer->block;
    words[buffer->readings] = reading;
    buffer->readings++;
    return true;
}

/* Prints all readings of a buffer. */
static void show(const struct buffer *buffer)
{
    const uint32_t *words = arena + buffer->block;
    printf("%s has %" PRIu32 " readings:", buffer->sensor, buffer->readings);
    for (uint32_t at = 0; at < buffer->readings; at++)
        printf(" %" PRIu32, words[at]);
    printf("\n");
}

/* Prints how full the arena is. */
static bool report(void)
{
    uint32_t answer[4];
    if (!done("zv_report", zv_report(arena, WORDS, answer)))
        return false;
    printf("free words: %" PRIu32 ", largest request: %" PRIu32 ", ", answer[ZV_FREE_WORDS], answer[ZV_LARGEST]);
    printf("blocks: %" PRIu32 ", free chunks: %" PRIu32 "\n", answer[ZV_LIVE_BLOCKS], answer[ZV_FREE_CHUNKS]);
    return true;
}

/* The sensors, which a board would ask. */
static uint32_t motor_current(uint32_t turn) { return 300 + turn; }
static uint32_t light_level(uint32_t turn) { return 900 - 5 * turn; }

int main(void)
{
    struct buffer motor = {.sensor = "motor"};
    struct buffer light = {.sensor = "light"};
    if (!done("zv_start", zv_start(arena, WORDS)) || !begin(&motor) || !begin(&light))
        return EXIT_FAILURE;
    uint32_t turn = 0;
    while (store(&motor, motor_current(turn)) && store(&light, light_level(turn)))
        turn++;
    show(&motor);
    show(&light);
    if (!report() || !done("zv_free", zv_free(arena, WORDS, motor.block))
        || !done("zv_free", zv_free(arena, WORDS, light.block)) || !report())
        return EXIT_FAILURE;
    return EXIT_SUCCESS;
}
