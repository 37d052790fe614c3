/* Builds arenas: chunks laid one after another from word 2 on, or what a random run of calls leaves. */
#include "arenas.h"

enum { LEAST_CHUNK = 4, FEW_CHUNKS = 8 };

/* An arena that is being laid out: where the next chunk goes, and the word that names the next free one. */
struct site {
    uint32_t *arena;
    size_t words;
    size_t chunk;
    size_t link;
};

/* Another number for each number, in digits that cannot be foretold. */
static uint32_t noise(uint32_t number)
{
    number *= 2654435761u;
    number = (number ^ number >> 15) * 2246822519u;
    return number ^ number >> 13;
}

/* Every word differs from all others, so that a word at a wrong place shows. */
static void fill_with_noise(uint32_t *arena, size_t words, uint32_t first)
{
    size_t i;

    for (i = 0; i < words; i++)
        arena[i] = noise(first + (uint32_t)i);
}

static struct site begin_site(uint32_t *arena, size_t words)
{
    struct site site = {arena, words, FIRST_CHUNK, 1};

    fill_with_noise(arena, words, 1);
    arena[0] = (uint32_t)words;
    arena[1] = 0;
    return site;
}

/* Lays a live chunk, all of whose block was asked for. */
static void lay_live(struct site *site, size_t size)
{
    site->arena[site->chunk] = (uint32_t)size;
    site->arena[site->chunk + 1] = LIVE_MARK + (uint32_t)size - HEADER;
    site->chunk += size;
}

static void lay_gap(struct site *site, size_t size)
{
    site->arena[site->link] = (uint32_t)site->chunk;
    site->arena[site->chunk] = (uint32_t)size;
    site->arena[site->chunk + 1] = 0;
    site->link = site->chunk + 1;
    site->chunk += size;
}

/*
 * Lays live chunks, and answers what is left of the arena for the last one, which is not laid. They are a little longer
 * and shorter by turns: at equal distances many headers would share the same places of a cache.
 */
static size_t lay_all_but_one(struct site *site, size_t count)
{
    size_t middle = (site->words - FIRST_CHUNK) / count / 2 * 2;
    size_t step = middle / 8 / 2 * 2;
    size_t i;

    for (i = 0; i + 1 < count; i++)
        lay_live(site, middle - 2 * step + i * 2 % 5 * step);
    return site->words - site->chunk;
}

void fill_with_live(uint32_t *arena, size_t words, size_t count)
{
    struct site site = begin_site(arena, words);

    lay_live(&site, lay_all_but_one(&site, count));
}

static void fill_but_for_top(uint32_t *arena, size_t words, size_t count)
{
    struct site site = begin_site(arena, words);

    lay_gap(&site, lay_all_but_one(&site, count));
}

/*
 * Live and free chunks by turns. At the top: two live ones, the lower of them longer than the gap before it, and a
 * larger gap. When that lower one moves away and comes back, the gap before it is long enough to be split off again.
 */
static void fill_by_turns(uint32_t *arena, size_t words, size_t size)
{
    struct site site = begin_site(arena, words);
    size_t last = size < LEAST_SPLIT ? LEAST_SPLIT : size;
    size_t top = size + last + (last + 2) + size + (last + 2 + LEAST_SPLIT);

    while (site.words - site.chunk >= 2 * size + top) {
        lay_live(&site, size);
        lay_gap(&site, size);
    }
    lay_live(&site, size);
    lay_gap(&site, last);
    lay_live(&site, last + 2);
    lay_live(&site, size);
    lay_gap(&site, site.words - site.chunk);
}

void fill_arena(uint32_t *arena, size_t words, enum filling filling, enum crowd crowd)
{
    size_t count = crowd == FEW ? FEW_CHUNKS : (words - FIRST_CHUNK) / LEAST_CHUNK;

    switch (filling) {
    case ALL_LIVE:
        fill_with_live(arena, words, count);
        break;
    case GAP_AT_TOP:
        /* Among least chunks the gap takes the place of two, so that it is long enough to be split off. */
        fill_but_for_top(arena, words, crowd == FEW ? count : count - 1);
        break;
    case EVERY_SECOND:
        fill_by_turns(arena, words, crowd == FEW ? words / 10 / 2 * 2 : LEAST_CHUNK);
        break;
    case USUAL_USE:
        fill_used(arena, words, crowd, 0);
        break;
    }
}

/* Stores noise into every block, as its holder would. */
static void fill_blocks(uint32_t *arena, size_t words, uint32_t first)
{
    size_t chunk;

    for (chunk = FIRST_CHUNK; chunk < words; chunk += arena[chunk]) {
        if (arena[chunk + 1] >= LIVE_MARK)
            fill_with_noise(arena + chunk + HEADER, arena[chunk] - HEADER, first + (uint32_t)chunk);
    }
}

void fill_used(uint32_t *arena, size_t words, enum crowd crowd, uint32_t number)
{
    uint32_t first = number * (uint32_t)words + 1;

    fill_with_noise(arena, words, first);
    leave_used(arena, words, crowd, number);
    fill_blocks(arena, words, first);
}

size_t chunks_of(const uint32_t *arena, size_t words, size_t starts[MOST_CHUNKS])
{
    size_t count = 0;
    size_t chunk;

    for (chunk = FIRST_CHUNK; chunk < words; chunk += arena[chunk])
        starts[count++] = chunk;
    return count;
}
