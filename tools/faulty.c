/* Fault injection for a program as it is shipped: a library that is preloaded (LD_PRELOAD) makes allocations, reads and writes
 * fail as these environment variables say.
 *
 *   REFUSED_ALLOCATION=N   the Nth allocation fails, counted from 1
 *   REFUSED_RETRY=1        so does the one after it, if it is a retry
 *   READ_LIMIT=N           files that are opened give N bytes in all, and then each read fails
 *   READ_ERROR=N           with this error in place of EIO
 *   READ_CHUNK=N           a read gives at most N bytes
 *   WRITE_LIMIT=N          standard output takes N bytes in all, and then each write fails
 *   WRITE_CHUNK=N          a write to standard output takes at most N bytes
 *   INTERRUPTED=N          each Nth call that opens, reads or writes is interrupted first
 *   COUNTS=FILE            at the end the number of allocations is written to this file, and 1 if the allocation after the refused
 *                          one was a retry: of no more bytes, and of the block that the refused one would have grown, else 0
 */
#define _GNU_SOURCE
#include <dlfcn.h>
#include <errno.h>
#include <fcntl.h>
#include <stdarg.h>
#include <stdio.h>
#include <stdlib.h>
#include <sys/types.h>
#include <unistd.h>

static long allocations, transfers, refused, refused_retry, was_retried, read_left = -1, read_chunk, write_left = -1, write_chunk, interrupted;
static size_t refused_size;
static const void *refused_block;
static int read_error = EIO;

static int (*real_open)(const char *, int, ...);
static ssize_t (*real_read)(int, void *, size_t);
static ssize_t (*real_write)(int, const void *, size_t);

static long number(const char *name, long fallback)
{
    const char *text = getenv(name);
    return text ? atol(text) : fallback;
}

__attribute__((constructor)) static void begin(void)
{
    *(void **)&real_open = dlsym(RTLD_NEXT, "open");
    *(void **)&real_read = dlsym(RTLD_NEXT, "read");
    *(void **)&real_write = dlsym(RTLD_NEXT, "write");
    refused = number("REFUSED_ALLOCATION", 0);
    refused_retry = number("REFUSED_RETRY", 0);
    read_left = number("READ_LIMIT", -1);
    read_error = (int)number("READ_ERROR", EIO);
    read_chunk = number("READ_CHUNK", 0);
    write_left = number("WRITE_LIMIT", -1);
    write_chunk = number("WRITE_CHUNK", 0);
    interrupted = number("INTERRUPTED", 0);
    allocations = 0;
}

__attribute__((destructor)) static void end(void)
{
    const char *path = getenv("COUNTS");
    long count = allocations, retried = was_retried;
    refused = 0;
    if (path) {
        FILE *file = fopen(path, "w");
        if (file) {
            fprintf(file, "%ld %ld\n", count, retried);
            fclose(file);
        }
    }
}

/* BLOCK is the one that grows, or NULL. */
static int is_refused(const void *block, size_t size)
{
    allocations += 1;
    if (refused > 0 && allocations == refused + 1)
        was_retried = block == refused_block && size <= refused_size;
    if (allocations == refused + 1 && was_retried && refused_retry) {
        errno = ENOMEM;
        return 1;
    }
    if (allocations != refused)
        return 0;
    refused_size = size;
    refused_block = block;
    errno = ENOMEM;
    return 1;
}

extern void *__libc_malloc(size_t);
extern void *__libc_calloc(size_t, size_t);
extern void *__libc_realloc(void *, size_t);
extern void *__libc_memalign(size_t, size_t);

void *malloc(size_t size) { return is_refused(NULL, size) ? NULL : __libc_malloc(size); }

void *calloc(size_t count, size_t size) { return is_refused(NULL, count * size) ? NULL : __libc_calloc(count, size); }

void *realloc(void *old, size_t size) { return is_refused(old, size) ? NULL : __libc_realloc(old, size); }

void *aligned_alloc(size_t alignment, size_t size) { return is_refused(NULL, size) ? NULL : __libc_memalign(alignment, size); }

int posix_memalign(void **place, size_t alignment, size_t size)
{
    if (is_refused(NULL, size))
        return ENOMEM;
    *place = __libc_memalign(alignment, size);
    return *place ? 0 : ENOMEM;
}

static int is_interrupted(void)
{
    transfers += 1;
    if (interrupted == 0 || transfers % interrupted != 0)
        return 0;
    errno = EINTR;
    return 1;
}

/* The number of bytes that may be transferred, or -1 if the call fails. */
static ssize_t allowed(long *left, long chunk, size_t requested)
{
    if (*left == 0 && requested > 0) {
        errno = EIO;
        return -1;
    }
    if (*left > 0 && requested > (size_t)*left)
        requested = (size_t)*left;
    if (chunk > 0 && requested > (size_t)chunk)
        requested = (size_t)chunk;
    return (ssize_t)requested;
}

int open(const char *path, int flags, ...)
{
    va_list more;
    mode_t mode = 0;
    if (flags & O_CREAT) {
        va_start(more, flags);
        mode = (mode_t)va_arg(more, int);
        va_end(more);
    }
    return is_interrupted() ? -1 : real_open(path, flags, mode);
}

ssize_t read(int file, void *buffer, size_t size)
{
    ssize_t count;
    if (is_interrupted())
        return -1;
    count = allowed(&read_left, read_chunk, size);
    if (count < 0) {
        errno = read_error;
        return -1;
    }
    count = real_read(file, buffer, (size_t)count);
    if (count > 0 && read_left > 0)
        read_left -= count;
    return count;
}

ssize_t write(int file, const void *buffer, size_t size)
{
    ssize_t count;
    if (file != STDOUT_FILENO)
        return real_write(file, buffer, size);
    if (is_interrupted() || (count = allowed(&write_left, write_chunk, size)) < 0)
        return -1;
    count = real_write(file, buffer, (size_t)count);
    if (count > 0 && write_left > 0)
        write_left -= count;
    return count;
}
