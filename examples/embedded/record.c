/* The recorder of a scale: it keeps the last rows in a ring, and with the oldest of them the prelude that brings a new scale there. What it
 * writes is a log that `wc line` runs:
 *
 *     record PLATE LOG ROWS KEPT
 *
 * It plays the first ROWS rows of LOG, as if they came from the load cell, the line and the inputs, and then writes the prelude and the last
 * KEPT to 2 * KEPT of these rows. A controller would write it when somebody asks why the scale showed what it showed. */
#include "narbeddo.h"

#include <inttypes.h>
#include <stdio.h>
#include <stdlib.h>
#include <string.h>

#define LONGEST 128 /* bytes of a row's text here */
#define MOST 64     /* rows in each half of the ring */

/* Half of the ring: the state in which its first row found the scale, and the rows since then. */
typedef struct part {
    narbeddo_state before;
    uint64_t ms;
    uint32_t count;
    char rows[MOST][LONGEST];
} part;

/* When a half is full the other one starts over: so the older half is always whole, and no row is moved. */
typedef struct recorder {
    uint32_t kept;
    uint32_t now; /* the half that is being filled */
    uint64_t ms;
    part parts[2];
} recorder;

static void start_part(recorder *it, narbeddo_scale *scale)
{
    part *fresh = &it->parts[it->now];
    fresh->before = narbeddo_prelude(scale);
    fresh->ms = it->ms;
    fresh->count = 0;
}

/* Keeps a row that is about to be given to the scale. It allocates nothing and takes constant time. */
static void keep(recorder *it, narbeddo_scale *scale, uint64_t ms, const char *row)
{
    if (it->parts[it->now].count == it->kept) {
        it->now = 1 - it->now;
        start_part(it, scale);
    }
    strcpy(it->parts[it->now].rows[it->parts[it->now].count++], row);
    it->ms = ms;
}

/* As many samples of a load as the window holds, and a request at it. */
static void write_load(const narbeddo_state *state, uint64_t ms, int32_t counts, char letter)
{
    uint32_t i;
    for (i = 0; i < state->window; i++) {
        printf("%" PRIu64 ",C,%" PRId32 "\n", ms, counts);
    }
    printf("%" PRIu64 ",L,0a%02x0d\n", ms, (unsigned)letter);
}

static void write_prelude(const narbeddo_state *state, uint64_t ms)
{
    uint32_t i;
    if (state->has_zero != 0) {
        write_load(state, ms, state->zero, 'Z');
    }
    if (state->has_tare != 0) {
        write_load(state, ms, state->tare, 'T');
    }
    for (i = 0; i < state->count; i++) {
        printf("%" PRIu64 ",C,%" PRId32 "\n", ms, state->samples[i]);
    }
    if (state->inputs != 0) {
        printf("%" PRIu64 ",I,%04" PRIx32 "\n", ms, state->inputs);
    }
    if (state->length != 0) {
        printf("%" PRIu64 ",L,", ms);
        for (i = 0; i < state->length; i++) {
            printf("%02x", state->request[i]);
        }
        printf("\n");
    }
}

/* The log: the prelude before the older half, or before the only one, and all rows since. */
static void write_log(const recorder *it)
{
    const part *older = &it->parts[1 - it->now];
    const part *newer = &it->parts[it->now];
    uint32_t i;
    if (older->count == 0) {
        older = newer;
    }
    printf("ms,kind,data\n");
    write_prelude(&older->before, older->ms);
    for (i = 0; older != newer && i < older->count; i++) {
        printf("%s\n", older->rows[i]);
    }
    for (i = 0; i < newer->count; i++) {
        printf("%s\n", newer->rows[i]);
    }
}

/* Gives a row to the scale. The answers would go to the host. */
static void play(narbeddo_scale *scale, char kind, const char *data)
{
    if (kind == 'C') {
        narbeddo_sample(scale, (int32_t)strtol(data, NULL, 10));
    } else if (kind == 'I') {
        narbeddo_inputs(scale, (uint16_t)strtoul(data, NULL, 16));
    } else if (kind == 'L') {
        for (; *data != '\0'; data += 2) {
            char digits[3] = {data[0], data[1], '\0'};
            narbeddo_byte(scale, (uint8_t)strtoul(digits, NULL, 16));
        }
    }
}

static void open_scale(narbeddo_scale *scale, const char *path)
{
    static uint8_t plate[4096];
    FILE *file = fopen(path, "rb");
    size_t length = file == NULL ? 0 : fread(plate, 1, sizeof plate, file);
    narbeddo_make(scale);
    if (file == NULL || narbeddo_open(scale, plate, length).status != NARBEDDO_DONE) {
        exit(3);
    }
    fclose(file);
}

int main(int count, char **words)
{
    static narbeddo_scale scale;
    static recorder it;
    char row[LONGEST];
    FILE *log;
    long left;
    if (count != 5 || narbeddo_size() > sizeof scale) {
        return 2;
    }
    open_scale(&scale, words[1]);
    left = strtol(words[3], NULL, 10);
    it.kept = (uint32_t)strtoul(words[4], NULL, 10);
    log = fopen(words[2], "r");
    if (log == NULL || it.kept == 0 || it.kept > MOST || fgets(row, sizeof row, log) == NULL) {
        return 2;
    }
    start_part(&it, &scale);
    for (; left > 0 && fgets(row, sizeof row, log) != NULL; left--) {
        const char *kind;
        row[strcspn(row, "\r\n")] = '\0';
        kind = strchr(row, ',');
        if (kind == NULL) {
            return 2;
        }
        keep(&it, &scale, strtoull(row, NULL, 10), row);
        play(&scale, kind[1], kind + 3);
    }
    fclose(log);
    write_log(&it);
    narbeddo_close(&scale);
    return 0;
}
