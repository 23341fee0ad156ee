/* A million calls of a scale with a program and a plate, in steady state: none allocates memory, and the process does not grow. It prints the time of a call. */
#define _POSIX_C_SOURCE 199309L
#include "narbeddo.h"

#include <stdio.h>
#include <stdlib.h>
#include <string.h>
#include <time.h>

static unsigned long asked, held, held_most;

/* Each block starts with its size, so that the memory in use can be summed. */
static narbeddo_block block_of(void *old, size_t size)
{
    static char none;
    narbeddo_block answer = {false, &none};
    size_t before = old == NULL ? 0 : *(size_t *)((char *)old - 16);
    char *block = realloc(old == NULL ? NULL : (char *)old - 16, size + 16);
    asked++;
    if (block != NULL) {
        *(size_t *)block = size;
        held += size - before;
        held_most = held > held_most ? held : held_most;
        answer.ok = true;
        answer.at = block + 16;
    }
    /* cppcheck-suppress memleak ; the block is given out from its 16th byte on */
    return answer;
}

narbeddo_block rattle_alloc(size_t size, size_t align)
{
    (void)align;
    return block_of(NULL, size);
}

narbeddo_block rattle_realloc(void *at, size_t kept, size_t size, size_t align)
{
    (void)kept;
    (void)align;
    return block_of(at, size);
}

void rattle_dealloc(void *at)
{
    held -= *(size_t *)((char *)at - 16);
    free((char *)at - 16);
}

/* The pages of the process that are in memory. */
static long resident(void)
{
    long all = 0, pages = 0;
    FILE *file = fopen("/proc/self/statm", "r");
    if (file == NULL || fscanf(file, "%ld %ld", &all, &pages) != 2) {
        exit(2);
    }
    fclose(file);
    return pages;
}

static double seconds(void)
{
    struct timespec now;
    clock_gettime(CLOCK_MONOTONIC, &now);
    return (double)now.tv_sec + (double)now.tv_nsec * 1e-9;
}

static uint8_t text[65536], plate[65536];

/* Reads a file into 65536 bytes, and returns its length. */
static size_t read_file(const char *path, uint8_t *into)
{
    FILE *file = fopen(path, "rb");
    size_t length = file == NULL ? 0 : fread(into, 1, sizeof text, file);
    if (file != NULL) {
        fclose(file);
    }
    return length;
}

/* Rounds of six calls: a sample, three bytes on the line, inputs and a scan. Returns the steps of all scans. */
static unsigned long long rounds(narbeddo_scale *scale, uint64_t *moment, unsigned long count, double spent[3])
{
    unsigned long long steps = 0;
    unsigned long i;
    double start;
    for (i = 0; i < count; i += 1000) {
        unsigned long j;
        start = seconds();
        for (j = 0; j < 1000; j++) {
            narbeddo_sample(scale, 10000 + (int32_t)(j * 600));
        }
        spent[0] += seconds() - start;
        start = seconds();
        for (j = 0; j < 1000; j++) {
            narbeddo_byte(scale, '\n');
            narbeddo_byte(scale, 'W');
            if (narbeddo_byte(scale, '\r').length != 20) {
                exit(2);
            }
        }
        spent[1] += seconds() - start;
        start = seconds();
        for (j = 0; j < 1000; j++) {
            narbeddo_inputs(scale, (uint16_t)j);
            steps += narbeddo_scan(scale, ++*moment).steps;
        }
        spent[2] += seconds() - start;
    }
    return steps;
}

int main(int count, char **words)
{
    static narbeddo_scale scale;
    size_t length, plate_length;
    uint64_t moment = 0;
    double spent[3] = {0, 0, 0};
    unsigned long long steps;
    unsigned long before, more;
    long pages;
    if (count != 3) {
        fputs("usage: try_steady PROGRAM PLATE\n", stderr);
        return 2;
    }
    length = read_file(words[1], text);
    plate_length = read_file(words[2], plate);
    narbeddo_make(&scale);
    if (narbeddo_open(&scale, plate, plate_length).status != NARBEDDO_DONE || narbeddo_load(&scale, text, length).status != NARBEDDO_DONE) {
        return 2;
    }
    rounds(&scale, &moment, 10000, spent);
    before = asked;
    pages = resident(); /* once for the pages that the reading of the file itself takes */
    pages = resident();
    memset(spent, 0, sizeof spent);
    steps = rounds(&scale, &moment, 170000, spent);
    more = asked - before;
    pages = resident() - pages;
    printf("requests for memory %lu, pages more %ld\n", more, pages);
    printf("held %lu bytes, %lu while the text was loaded, %lu in the scale itself\n", held, held_most, (unsigned long)narbeddo_size());
    printf("sample %.0f ns, request and answer %.0f ns, inputs and scan %.0f ns, %.1f ns a step\n", spent[0] / 170000 * 1e9, spent[1] / 170000 * 1e9,
           spent[2] / 170000 * 1e9, spent[2] / (double)(steps != 0 ? steps : 1) * 1e9);
    return more != 0 || pages > 0;
}
