/* Random runs of calls: a user who asks for blocks, holds them for a while and gives them back. */
#include "traces.h"

#include <stdlib.h>

/* A source of numbers. */
struct dice {
    uint32_t state;
};

/* Who makes the calls of a trace: the blocks held, with their granted words, and the words that all of these take. */
struct user {
    struct dice dice;
    const struct mix *mix;
    enum crowd crowd;
    size_t words;
    uint32_t blocks[MOST_BLOCKS];
    uint32_t grants[MOST_BLOCKS];
    uint32_t held;
    uint32_t taken;
};

/*                                     start alloc, free resize relocate realloc size report */
const struct mix few_moves = {"few moves", {0, 29, 29, 10, 2, 8, 18, 4}, 20, 3};
const struct mix many_moves = {"many moves", {0, 12, 12, 4, 30, 36, 4, 2}, 70, 3};
static const struct mix logger = {"logger", {0, 40, 40, 0, 0, 20, 0, 0}, 50, 0};

/* A number from 0 up to, but not with, `sides`. */
static uint32_t roll(struct dice *dice, uint32_t sides)
{
    dice->state ^= dice->state << 13;
    dice->state ^= dice->state >> 17;
    dice->state ^= dice->state << 5;
    return (uint32_t)(((uint64_t)dice->state * sides) >> 32);
}

/* A request such as a logger makes, of at most an eighth of the arena. */
static uint32_t draw_request(struct dice *dice, size_t words, enum crowd crowd)
{
    uint32_t longest = (uint32_t)words / 8;
    uint32_t kind = roll(dice, 100);
    uint32_t n;

    if (crowd == FEW)
        return 1 + longest / 4 + roll(dice, longest * 3 / 4);
    if (kind < 80)
        n = 1 + roll(dice, 6);
    else
        n = kind < 95 ? 8 + roll(dice, 16) : 24 + roll(dice, 72);
    return n < longest ? n : longest;
}

/* Which call comes next: while less than two thirds of the words are taken more allocs than frees, and then fewer. */
static enum call draw_call(struct user *user)
{
    uint32_t left = roll(&user->dice, 100);
    uint32_t allocs = user->taken * 3 < user->words * 2 ? 75 : 25;
    enum call call = START;

    while (left >= user->mix->share[call])
        left -= user->mix->share[call++];
    if (call == ALLOC || call == FREE)
        call = roll(&user->dice, 100) < allocs ? ALLOC : FREE;
    return user->held == 0 ? ALLOC : call;
}

/* A request for a block that has `granted` words: longer, or shorter. */
static uint32_t draw_anew(struct user *user, uint32_t granted)
{
    if (roll(&user->dice, 100) < user->mix->longer)
        return granted + 1 + roll(&user->dice, 8 + granted / 4);
    return 1 + roll(&user->dice, granted);
}

static void spoil(struct user *user, struct step *step)
{
    switch (roll(&user->dice, 3)) {
    case 0:
        step->block = roll(&user->dice, (uint32_t)user->words + 8);
        break;
    case 1:
        step->n = 0;
        break;
    default:
        step->n = (uint32_t)user->words;
    }
}

/* What the user does next, and which of the blocks held it is about. */
static struct step draw_step(struct user *user, uint32_t *pick)
{
    struct step step = {draw_call(user), 0, 0};

    *pick = user->held == 0 ? 0 : roll(&user->dice, user->held);
    step.block = user->blocks[*pick];
    if (step.call == ALLOC)
        step.n = draw_request(&user->dice, user->words, user->crowd);
    else
        step.n = draw_anew(user, user->grants[*pick]);
    if (roll(&user->dice, 100) < user->mix->wrong)
        spoil(user, &step);
    return step;
}

/* The user takes note of what came of a step that was done. */
static void learn(struct user *user, const struct step *step, uint32_t pick, const uint32_t answer[2])
{
    switch (step->call) {
    case ALLOC:
        pick = user->held++;
        user->taken += 2;
        break;
    case FREE:
        user->taken -= user->grants[pick] + 2;
        user->held--;
        user->blocks[pick] = user->blocks[user->held];
        user->grants[pick] = user->grants[user->held];
        return;
    case RESIZE:
    case RELOCATE:
    case REALLOC:
        user->taken -= user->grants[pick];
        break;
    default:
        return;
    }
    user->taken += answer[ZV_GRANTED];
    user->blocks[pick] = answer[ZV_BLOCK];
    user->grants[pick] = answer[ZV_GRANTED];
}

static struct user *new_user(const struct mix *mix, enum crowd crowd, size_t words, uint32_t seed)
{
    struct user *user = calloc(1, sizeof *user);

    if (user == NULL)
        abort();
    user->dice.state = seed;
    user->mix = mix;
    user->crowd = crowd;
    user->words = words;
    return user;
}

/* Draws a step and makes it through plain C. Where a wrong block happens to be another that is held, it draws again. */
static struct step live_on(struct user *user, uint32_t *arena)
{
    uint32_t answer[4] = {0, 0, 0, 0};
    uint32_t pick;
    struct step step = draw_step(user, &pick);

    while (step.call != ALLOC && step.call != REPORT && step.block != user->blocks[pick]
           && plain.size(arena, user->words, step.block, answer) == ZV_DONE)
        step = draw_step(user, &pick);
    if (make_step(&plain, arena, user->words, &step, answer) == ZV_DONE)
        learn(user, &step, pick, answer);
    return step;
}

uint32_t make_step(const struct library *library, uint32_t *arena, size_t words, const struct step *step,
                   uint32_t answer[4])
{
    switch (step->call) {
    case START:
        return library->start(arena, words);
    case ALLOC:
        return library->alloc(arena, words, step->n, answer);
    case FREE:
        return library->free(arena, words, step->block);
    case RESIZE:
        return library->resize(arena, words, step->block, step->n, answer);
    case RELOCATE:
        return library->relocate(arena, words, step->block, step->n, answer);
    case REALLOC:
        return library->realloc(arena, words, step->block, step->n, answer);
    case SIZE:
        return library->size(arena, words, step->block, answer);
    default:
        return library->report(arena, words, answer);
    }
}

uint32_t make_trace(const struct library *library, uint32_t *arena, size_t words, const struct trace *trace)
{
    uint32_t answer[4];
    uint32_t codes = 0;
    size_t i;

    for (i = 0; i < TRACE_STEPS; i++)
        codes |= make_step(library, arena, words, &trace->steps[i], answer);
    return codes;
}

void record_trace(struct trace *trace, size_t words, const struct mix *mix, uint32_t seed)
{
    static uint32_t arena[ZV_GREATEST_WORDS];
    struct user *user = new_user(mix, MANY, words, seed);
    size_t i;

    plain.start(arena, words);
    trace->steps[0] = (struct step){START, 0, 0};
    for (i = 1; i < TRACE_STEPS; i++)
        trace->steps[i] = live_on(user, arena);
    free(user);
}

void leave_used(uint32_t *arena, size_t words, enum crowd crowd, uint32_t number)
{
    struct user *user = new_user(&logger, crowd, words, 20261116u + number);
    size_t left = 2 * words + 500;

    plain.start(arena, words);
    while (left-- > 0)
        live_on(user, arena);
    free(user);
}
