/* A filter between a converter and a scale: each sample is the mean of COUNTS_OF_A_MEAN counts, and no count is in two means.
 *
 * A zero or a tare is the last sample, and is taken while the last `window` samples lie within half an interval of one another. So while the
 * load rests, each sample has to lie within a quarter of an interval of the load. Then any two of them differ by at most
 * half an interval: the scale is stable, and a zero or a tare is within that quarter.
 *
 * A mean over whole periods of a vibration removes it: here 80 counts are 100 ms, which is one period of a platform that swings at 10 Hz and
 * five of hum from mains of 50 Hz. What is random falls with the square root of the number of counts. A mean that slides on by one count at a
 * time, or a filter that forgets slowly, does not serve: its samples change so little from one to the next that the scale is stable while they
 * still approach the load.
 *
 * The counts are made up. Each goes to one scale as it is; the means go to a second scale. */
#include "narbeddo.h"

#include <stdio.h>
#include <stdlib.h>
#include <string.h>

#define COUNTS_OF_A_MEAN 80
#define LEAST_COUNT (-8388608) /* the ends of a converter of 24 bits */
#define MOST_COUNT 8388607
#define COUNTS_A_SECOND 800
#define INTERVAL 200 /* counts, by the plate: 600000 for 3000 intervals */
#define EMPTY 10000
#define FIVE_KG 200000

static const char plate[] = "unit = \"kg\"\n"
                            "decimals = 3\n"
                            "max = 15000\n"
                            "e = 5\n"
                            "zero_counts = 10000\n"
                            "span_counts = 600000\n"
                            "window = 4\n";

/* ---- the filter */
typedef struct filter {
    int64_t sum;
    int32_t taken;
} filter;

static const filter empty_filter = {0, 0};

/* Takes a count, and returns whether a sample is complete. A count at an end of the converter is not averaged: it is a sample at once. */
static int take_count(filter *it, int32_t count, int32_t *sample)
{
    int64_t half = COUNTS_OF_A_MEAN / 2;
    if (count <= LEAST_COUNT || count >= MOST_COUNT) {
        *it = empty_filter;
        *sample = count;
        return 1;
    }
    it->sum += count;
    it->taken++;
    if (it->taken < COUNTS_OF_A_MEAN) {
        return 0;
    }
    *sample = (int32_t)((it->sum + (it->sum < 0 ? -half : half)) / COUNTS_OF_A_MEAN);
    *it = empty_filter;
    return 1;
}

/* ---- a converter that is made up: a load, a platform that swings after it was put on, hum, and noise */
static int32_t load = EMPTY;
static int64_t swing, swing_before; /* in 1/65536 count */
static uint32_t counted, dice = 1;

static void put_on(int32_t counts)
{
    load += counts;
    swing = -(int64_t)counts * 65536 / 10;
    swing_before = swing;
}

static int32_t next_count(void)
{
    static const int32_t hum[16] = {0, 15, 28, 37, 40, 37, 28, 15, 0, -15, -28, -37, -40, -37, -28, -15}; /* 50 Hz */
    int64_t next = (130341 * swing - 65209 * swing_before) / 65536; /* 10 Hz, a third of it left after 0.5 s */
    swing_before = swing;
    swing = next;
    dice = dice * 1664525u + 1013904223u;
    return load + (int32_t)(swing / 65536) + hum[counted++ % 16] + (int32_t)(dice >> 16) % 121 - 60;
}

/* ---- a scale, and what is seen of it */
typedef struct seen {
    narbeddo_scale scale;
    int32_t last;                            /* the last sample */
    int accepted, furthest;                  /* commands that were accepted, and how many counts the worst of them was off */
    int stable_off;                          /* samples at which the scale was stable, more than an interval from the load */
    int samples, stable, least, greatest;    /* since the last line that was printed; weights in grams */
} seen;

static void need(uint32_t status)
{
    if (status != NARBEDDO_DONE) {
        printf("status %u\n", (unsigned)status);
        exit(2);
    }
}

static void open_scale(seen *it)
{
    narbeddo_make(&it->scale);
    need(narbeddo_open(&it->scale, (const uint8_t *)plate, strlen(plate)).status);
}

static int is_stable(seen *it)
{
    narbeddo_reading reading = narbeddo_read(&it->scale);
    need(reading.status);
    return (reading.flags & NARBEDDO_STABLE) != 0;
}

static void hand_over(seen *it, int32_t sample)
{
    narbeddo_reading reading;
    need(narbeddo_sample(&it->scale, sample));
    reading = narbeddo_read(&it->scale);
    need(reading.status);
    it->last = sample;
    it->least = it->samples == 0 || reading.weights[0] < it->least ? reading.weights[0] : it->least;
    it->greatest = it->samples == 0 || reading.weights[0] > it->greatest ? reading.weights[0] : it->greatest;
    it->samples++;
    if (reading.flags & NARBEDDO_STABLE) {
        it->stable++;
        it->stable_off += abs(sample - load) > INTERVAL;
    }
}

/* A command of the host, Z or T. Its answer has a status after the line feed: E or T if the command was refused. */
static void command(seen *it, char letter)
{
    narbeddo_answer answer;
    need(narbeddo_byte(&it->scale, '\n').status);
    need(narbeddo_byte(&it->scale, (uint8_t)letter).status);
    answer = narbeddo_byte(&it->scale, '\r');
    need(answer.status);
    if (answer.length == 20 && answer.bytes[1] != 'E' && answer.bytes[1] != 'T') {
        int off = abs(it->last - load);
        it->accepted++;
        it->furthest = off > it->furthest ? off : it->furthest;
    }
}

static void print_weights(seen *it)
{
    printf("   %6.3f to %6.3f kg, stable %3d of %3d", it->least / 1000.0, it->greatest / 1000.0, it->stable, it->samples);
    it->samples = it->stable = 0;
}

static seen plain, with_filter;
static filter means;

/* Gives one count to both scales, and returns whether the filter's sample was complete. */
static int give_count(void)
{
    int32_t count = next_count(), sample;
    hand_over(&plain, count);
    if (!take_count(&means, count, &sample)) {
        return 0;
    }
    hand_over(&with_filter, sample);
    return 1;
}

static void give_mean(void)
{
    while (!give_count()) {
    }
}

/* Gives `count` commands to each scale, and returns whether those with the filter were all accepted within a quarter of an interval, and some
 * without it were not. */
static int try_commands(const char *what, char letter, int count)
{
    int i;
    plain.accepted = plain.furthest = with_filter.accepted = with_filter.furthest = 0;
    for (i = 0; i < count; i++) {
        give_mean();
        command(&plain, letter);
        command(&with_filter, letter);
    }
    printf("%s, %d commands %c\n", what, count, letter);
    printf("  without the filter: %d accepted, up to %d counts off\n", plain.accepted, plain.furthest);
    printf("  with the filter: %d accepted, up to %d counts off\n", with_filter.accepted, with_filter.furthest);
    return with_filter.accepted == count && 4 * with_filter.furthest <= INTERVAL && 4 * plain.furthest > INTERVAL;
}

/* Puts 5 kg on within a mean, and prints what is shown for four seconds. */
static void try_load(void)
{
    int i, stable_from = 0;
    printf("5 kg are put on\n    ms   without the filter                       with the filter\n");
    for (i = 0; i < 37; i++) {
        give_count();
    }
    put_on(FIVE_KG);
    plain.samples = plain.stable = with_filter.samples = with_filter.stable = 0;
    for (i = 1; i <= 40; i++) {
        give_mean();
        if (!is_stable(&with_filter)) {
            stable_from = i + 1;
        }
        if (i % 4 == 0) {
            printf("  %4d", i * 1000 * COUNTS_OF_A_MEAN / COUNTS_A_SECOND);
            print_weights(&plain);
            print_weights(&with_filter);
            printf("\n");
        }
    }
    printf("with the filter the scale is stable from %d ms on\n", stable_from * 1000 * COUNTS_OF_A_MEAN / COUNTS_A_SECOND);
    printf("stable, but more than an interval from the load: %d samples without the filter, %d with it\n", plain.stable_off, with_filter.stable_off);
}

int main(void)
{
    int i, is_right;
    open_scale(&plain);
    open_scale(&with_filter);
    printf("an interval is %d counts, a quarter of it %d; of %d counts a second a mean takes %d\n", INTERVAL, INTERVAL / 4, COUNTS_A_SECOND,
           COUNTS_OF_A_MEAN);
    for (i = 0; i < 4; i++) { /* the window fills */
        give_mean();
    }
    is_right = try_commands("empty", 'Z', 600);
    try_load();
    is_right &= try_commands("at rest", 'T', 600);
    need(narbeddo_close(&plain.scale));
    need(narbeddo_close(&with_filter.scale));
    return !is_right || with_filter.stable_off != 0;
}
