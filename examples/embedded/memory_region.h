/* The region of memory_region.c. */
#ifndef MEMORY_REGION_H
#define MEMORY_REGION_H

#include <stddef.h>

/* Takes these bytes as the region, all of them free, in place of the array of memory_region.c: before any other call. */
void region_start(void *bytes, size_t size);

/* The bytes that are free, and the greatest number of bytes that one request can get. */
size_t region_free(void);
size_t region_largest(void);

#endif
