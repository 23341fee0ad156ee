/* The three functions through which the library allocates memory, over malloc, realloc and free. Replace them by your own if you have no
 * malloc; all three use one allocator. A block is aligned to `align`, which is at most 16 (malloc's own alignment).
 *
 * They are called by narbeddo_open, narbeddo_load, narbeddo_change, narbeddo_close, narbeddo_value, narbeddo_about and narbeddo_path, and by
 * nothing else. */
#include "narbeddo.h"

#include <stdlib.h>

static narbeddo_block answer_for(void *at)
{
    static char none;
    narbeddo_block answer = {at != NULL, at != NULL ? at : &none};
    return answer;
}

/* A block of no bytes gets some, so that it can be freed. */
narbeddo_block rattle_alloc(size_t size, size_t align)
{
    return answer_for(malloc(size != 0 ? size : align));
}

narbeddo_block rattle_realloc(void *at, size_t kept, size_t size, size_t align)
{
    (void)kept; /* how many of its bytes stay */
    return answer_for(realloc(at, size != 0 ? size : align));
}

void rattle_dealloc(void *at)
{
    free(at);
}
