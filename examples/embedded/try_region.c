/* Finds the least region in which a plate and a program are opened, loaded and changed:
 *
 *     try_region PLATE PROGRAM
 *
 * With one byte less the call that is out of memory must say so and every block must be freed, or the status is 1. */
#include "memory_region.h"
#include "narbeddo.h"

#include <stdint.h>
#include <stdio.h>
#include <stdlib.h>

#define MOST 16777216

typedef struct text {
    uint8_t bytes[65536];
    size_t length;
} text;

/* How the calls ended over a region: NARBEDDO_DONE if all were done, else the status of the first that was not. */
typedef struct outcome {
    uint32_t status;
    int came_back; /* all of the region is one hole at the end */
} outcome;

static text plate, program;
static uint64_t region[MOST / sizeof(uint64_t)];

static void read_file(text *into, const char *path)
{
    FILE *file = fopen(path, "rb");
    if (file == NULL) {
        exit(3);
    }
    into->length = fread(into->bytes, 1, sizeof into->bytes, file);
    fclose(file);
}

/* A sample, a request, a scan: none of them allocates memory. */
static int is_at_work(narbeddo_scale *scale)
{
    return narbeddo_sample(scale, 10000) == NARBEDDO_DONE && narbeddo_byte(scale, '\n').status == NARBEDDO_DONE &&
           narbeddo_byte(scale, 'W').status == NARBEDDO_DONE && narbeddo_byte(scale, '\r').length == 20 &&
           narbeddo_scan(scale, 0).status == NARBEDDO_DONE;
}

static outcome run(size_t size, int changes)
{
    narbeddo_scale scale;
    outcome ended;
    size_t whole, largest;
    region_start(region, size);
    whole = region_free();
    largest = region_largest();
    narbeddo_make(&scale);
    ended.status = narbeddo_open(&scale, plate.bytes, plate.length).status;
    if (ended.status == NARBEDDO_DONE) {
        ended.status = narbeddo_load(&scale, program.bytes, program.length).status;
    }
    if (ended.status == NARBEDDO_DONE && !is_at_work(&scale)) {
        exit(1);
    }
    if (ended.status == NARBEDDO_DONE && changes) {
        ended.status = narbeddo_change(&scale, program.bytes, program.length).status;
        if (!is_at_work(&scale)) { /* with the new program, or still with the old one */
            exit(1);
        }
    }
    narbeddo_close(&scale);
    ended.came_back = region_free() == whole && region_largest() == largest;
    return ended;
}

/* By bisection: what fits into a region fits into a larger one. */
static size_t least(int changes)
{
    size_t too_small = 0, enough = sizeof region;
    if (run(enough, changes).status != NARBEDDO_DONE) {
        exit(2);
    }
    while (enough - too_small > 1) {
        size_t size = too_small + (enough - too_small) / 2;
        if (run(size, changes).status == NARBEDDO_DONE) {
            enough = size;
        } else {
            too_small = size;
        }
    }
    return enough;
}

int main(int count, char **words)
{
    size_t without, with;
    outcome enough, less;
    if (count != 3) {
        return 2;
    }
    read_file(&plate, words[1]);
    read_file(&program, words[2]);
    without = least(0);
    with = least(1);
    enough = run(with, 1);
    less = run(with - 1, 1);
    printf("opened and loaded in %lu bytes, changed in %lu; with one byte less status %u%s\n", (unsigned long)without, (unsigned long)with,
           (unsigned)less.status, enough.came_back && less.came_back ? ", and all came back" : ", AND NOT ALL CAME BACK");
    return !(less.status == NARBEDDO_NO_MEMORY && enough.came_back && less.came_back);
}
