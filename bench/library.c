/* The libraries that are measured. */
#include "library.h"

#include "plain.h"

const struct library ours = {
    zv_start,   zv_alloc, zv_alloc_best, zv_alloc_next, zv_free, zv_resize, zv_relocate,
    zv_realloc, zv_size,  zv_report,     zv_write,      zv_read, zv_check,
};

const struct library plain = {
    plain_start,   plain_alloc, plain_alloc_best, plain_alloc_next, plain_free, plain_resize, plain_relocate,
    plain_realloc, plain_size,  plain_report,     plain_write,      plain_read, plain_check,
};

static uint32_t idle_start(uint32_t *arena, size_t words)
{
    (void)arena, (void)words;
    return ZV_DONE;
}

static uint32_t idle_alloc(uint32_t *arena, size_t words, uint32_t n, uint32_t answer[2])
{
    (void)arena, (void)words, (void)n, (void)answer;
    return ZV_DONE;
}

static uint32_t idle_alloc_next(uint32_t *arena, size_t words, struct zv_rover *rover, uint32_t n, uint32_t answer[2])
{
    (void)arena, (void)words, (void)rover, (void)n, (void)answer;
    return ZV_DONE;
}

static uint32_t idle_free(uint32_t *arena, size_t words, uint32_t b)
{
    (void)arena, (void)words, (void)b;
    return ZV_DONE;
}

static uint32_t idle_grant(uint32_t *arena, size_t words, uint32_t b, uint32_t n, uint32_t answer[2])
{
    (void)arena, (void)words, (void)b, (void)n, (void)answer;
    return ZV_DONE;
}

static uint32_t idle_size(const uint32_t *arena, size_t words, uint32_t b, uint32_t answer[2])
{
    (void)arena, (void)words, (void)b, (void)answer;
    return ZV_DONE;
}

static uint32_t idle_report(const uint32_t *arena, size_t words, uint32_t answer[4])
{
    (void)arena, (void)words, (void)answer;
    return ZV_DONE;
}

static uint32_t idle_write(const uint32_t *arena, size_t words, uint8_t *text, size_t bytes, uint32_t answer[1])
{
    (void)arena, (void)words, (void)text, (void)bytes, (void)answer;
    return ZV_DONE;
}

static uint32_t idle_read(const uint8_t *text, size_t bytes, uint32_t *arena, size_t words)
{
    (void)text, (void)bytes, (void)arena, (void)words;
    return ZV_DONE;
}

static uint32_t idle_check(const uint8_t *spelled, size_t bytes)
{
    (void)spelled, (void)bytes;
    return ZV_DONE;
}

const struct library idle = {
    idle_start, idle_alloc, idle_alloc,  idle_alloc_next, idle_free, idle_grant, idle_grant,
    idle_grant, idle_size,  idle_report, idle_write,      idle_read, idle_check,
};
