/* Plain C a second time, under other names: the two differ only in where they lie in the program. */
#define plain_start again_start
#define plain_alloc again_alloc
#define plain_alloc_best again_alloc_best
#define plain_alloc_next again_alloc_next
#define plain_free again_free
#define plain_resize again_resize
#define plain_relocate again_relocate
#define plain_realloc again_realloc
#define plain_size again_size
#define plain_report again_report
#define plain_write again_write
#define plain_read again_read
#define plain_check again_check

#include "plain.c"
#include "plain_pictures.c"

#include "library.h"

const struct library again = {
    again_start,   again_alloc, again_alloc_best, again_alloc_next, again_free, again_resize, again_relocate,
    again_realloc, again_size,  again_report,     again_write,      again_read, again_check,
};
