/* The three functions through which the library allocates memory, over one region instead of malloc: an array, or bytes of yours.
 *
 * First fit: a request gets the beginning of the first hole that is large enough, a block that is given back is joined with the holes next to it.
 * So the place of a block does not depend on the end of the region, and what fits into a region fits into a larger one. How large it has to be for
 * your plate and your program is found by try_region.c. */
#include "memory_region.h"
#include "narbeddo.h"

#include <string.h>

/* The size of the array, in bytes. */
#ifndef REGION
#define REGION 65536
#endif

/* A block is aligned to this, and has a head of as many bytes. */
#define GRAIN 16

/* The head of a hole, or of a block: its size with the head, and of a hole the next one by its address. */
typedef struct hole {
    size_t size;
    struct hole *next;
} hole;

static union array {
    uint8_t bytes[REGION];
    uint64_t aligned[2];
} array;
static hole *holes;
static bool is_started;

void region_start(void *bytes, size_t size)
{
    size_t skipped = (size_t)(-(uintptr_t)bytes % GRAIN);
    size_t left = size > skipped ? (size - skipped) / GRAIN * GRAIN : 0;
    is_started = true;
    holes = NULL;
    if (left != 0) {
        holes = (hole *)(void *)((uint8_t *)bytes + skipped);
        holes->size = left;
        holes->next = NULL;
    }
}

size_t region_free(void)
{
    size_t free_bytes = 0;
    const hole *at;
    for (at = holes; at != NULL; at = at->next) {
        free_bytes += at->size;
    }
    return free_bytes;
}

size_t region_largest(void)
{
    size_t largest = GRAIN;
    const hole *at;
    for (at = holes; at != NULL; at = at->next) {
        largest = at->size > largest ? at->size : largest;
    }
    return largest - GRAIN;
}

static uint8_t *end_of(hole *block)
{
    return (uint8_t *)block + block->size;
}

/* Cuts a hole down to a size, and gives the hole that is left after it, or the next one. */
static hole *cut(hole *found, size_t size)
{
    hole *rest = (hole *)(void *)((uint8_t *)found + size);
    if (found->size == size) {
        return found->next;
    }
    rest->size = found->size - size;
    rest->next = found->next;
    found->size = size;
    return rest;
}

narbeddo_block rattle_alloc(size_t size, size_t align)
{
    narbeddo_block answer = {false, array.bytes};
    size_t needed = GRAIN + size / GRAIN * GRAIN + (size % GRAIN != 0 ? GRAIN : 0);
    hole **at = &holes;
    (void)align; /* at most GRAIN */
    if (!is_started) {
        region_start(array.bytes, sizeof array.bytes);
    }
    while (*at != NULL && (*at)->size < needed) {
        at = &(*at)->next;
    }
    if (*at != NULL && needed > size) { /* a size that wraps is never available */
        answer.ok = true;
        answer.at = (uint8_t *)*at + GRAIN;
        *at = cut(*at, needed);
    }
    return answer;
}

void rattle_dealloc(void *at)
{
    hole *freed = (hole *)(void *)((uint8_t *)at - GRAIN);
    hole *before = NULL, *after = holes;
    while (after != NULL && after < freed) {
        before = after;
        after = after->next;
    }
    freed->next = after;
    if (after != NULL && end_of(freed) == (uint8_t *)after) {
        freed->size += after->size;
        freed->next = after->next;
    }
    if (before == NULL) {
        holes = freed;
    } else if (end_of(before) == (uint8_t *)freed) {
        before->size += freed->size;
        before->next = freed->next;
    } else {
        before->next = freed;
    }
}

/* The block stays where it is if it is large enough; else its bytes go to another one. */
narbeddo_block rattle_realloc(void *at, size_t kept, size_t size, size_t align)
{
    const hole *block = (const hole *)(const void *)((const uint8_t *)at - GRAIN);
    narbeddo_block answer = {true, at};
    if (size > block->size - GRAIN) {
        answer = rattle_alloc(size, align);
        if (answer.ok) {
            memcpy(answer.at, at, kept);
            rattle_dealloc(at);
        }
    }
    return answer;
}
