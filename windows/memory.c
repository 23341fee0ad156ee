/* The memory that the program asks for, on Windows.

   Two of these calls return a structure by value. The module of the program expects it in two registers, as the system has it for
   which the toolchain makes the module; a C compiler for Windows would return it through memory. So this file is compiled to a
   module for that system, whose target is then changed together with the program's (tools/windows). */
typedef unsigned long size; /* 64 bits on the system for which this is compiled */

void *malloc(size length);
void *realloc(void *block, size length);
void free(void *block);

/* whether there is memory, and where */
struct tried {
    unsigned long is_there;
    void *block;
};

/* what malloc of Windows aligns to */
#define ALIGNED 16

static unsigned char nothing[ALIGNED];

static struct tried tried(void *block)
{
    struct tried result = {block != 0, block ? block : nothing};
    return result;
}

struct tried rattle_alloc(size length, size alignment)
{
    return tried(alignment <= ALIGNED ? malloc(length ? length : 1) : 0);
}

struct tried rattle_realloc(void *block, size old_length, size length, size alignment)
{
    (void)old_length;
    return tried(alignment <= ALIGNED ? realloc(block, length ? length : 1) : 0);
}

void rattle_dealloc(void *block)
{
    free(block);
}
