/* Two scales side by side, fed the same and compared after each sample: how many flipped bits of one scale's memory does that detect?
 *
 * A bit of memory may flip by itself, and the library does not check for it. A controller that feeds two scales in two places of memory, and
 * goes to its safe state as soon as they differ, detects a bit that changed a weight, an answer or an output. This program tries it: it flips
 * each bit of the first scale's memory once (with `two_scales 61` every 61st bit), each in a process of its own, and goes on with both.
 *
 * A pointer with a flipped bit leads to other memory. So the two scales are so far apart that no pointer into the first with one flipped bit
 * leads into the second: the distance of any two of their bytes is more than 2^17 and less than 2^18.
 *
 * It brings the three functions of memory, so that it knows the blocks of each scale. */
#define _XOPEN_SOURCE 600
#include "narbeddo.h"

#include <signal.h>
#include <stdio.h>
#include <stdlib.h>
#include <string.h>
#include <sys/resource.h>
#include <sys/types.h>
#include <sys/wait.h>
#include <unistd.h>

/* ---- what comes to both scales */
static const char plate[] = "unit = \"kg\"\ndecimals = 3\nmax = 15000\ne = 5\nzero_counts = 10000\nspan_counts = 600000\nwindow = 4\n";
static const char program[] = "PROGRAM Fill\n"
                              "VAR filling, full : BOOL; ready : TON; bags : CTU; END_VAR\n"
                              "LD %IX0.0\n"
                              "S filling\n"
                              "LD %ID1\n"
                              "GE 2600\n"
                              "ST full\n"
                              "R filling\n"
                              "CAL ready(IN := full, PT := T#30ms, Q => %QX0.1)\n"
                              "CAL bags(CU := full, R := %IX0.1, CV => %QD0)\n"
                              "LD filling\n"
                              "AND %IX1.5\n"
                              "ST %QX0.0\n"
                              "LD %ID1\n"
                              "ST %QD1\n"
                              "END_PROGRAM\n";

/* A number of samples, the first one, and the step from one to the next. With each the host asks for the weight, with the last for what is here. */
typedef struct part {
    int32_t counts, step, samples;
    char last;
} part;

static const part before[] = {{10000, 0, 5, 'Z'}, {60000, 0, 5, 'T'}, {90000, 0, 4, 'W'}};
static const part after[] = {
    {110000, 1, 256, 'M'},                                        /* each count of an interval and more */
    {10000, 0, 5, 'W'}, {260000, 0, 5, 'W'}, {10000, 0, 5, 'W'},  /* a bag is filled */
    {260000, 50, 5, 'T'}, {260000, 0, 5, 'W'},                    /* in motion, and at rest */
    {611500, 25, 20, 'W'}, {6300, -25, 20, 'W'},                  /* to overload, and to the other end */
    {22000, 0, 5, 'Z'}, {22001, 0, 5, 'Z'}, {210000, 0, 5, 'T'},  /* a zero at its limit, one beyond it, a tare */
    {310000, 0, 5, 'C'}, {10000, 0, 5, 'Z'}, {10050, 1, 5, 'W'}};
static const part changed[] = {{10000, 0, 5, 'Z'}, {260000, 0, 5, 'T'}, {160000, 0, 5, 'W'}};

#define COUNT(parts) (sizeof(parts) / sizeof(parts)[0])

/* All that comes out of a scale after a sample. */
typedef struct seen {
    narbeddo_engraved engraved;
    narbeddo_reading reading;
    narbeddo_answer answer;
    narbeddo_scanned scanned;
    uint32_t statuses;
} seen;

/* ---- memory: a scale and its blocks in 64 KB, the other 192 KB further on, what is right 320 KB; the whole aligned to 512 KB */
#define SIDE 65536
#define ALIGNED 524288
#define MOST_BLOCKS 256
#define MOST_SAMPLES 512
#define NEVER 0xa5 /* what a byte holds that nothing was written to */

typedef struct side {
    narbeddo_scale scale;
    uint64_t words[(SIDE - sizeof(narbeddo_scale)) / 8];
} side;

typedef struct layout {
    side first;
    uint8_t gap[2 * SIDE];
    side second;
    uint8_t gap_again[SIDE];
    seen right[MOST_SAMPLES]; /* what is seen with no flipped bit */
} layout;

typedef struct block {
    uint8_t *at;
    size_t size;
    bool is_out;
} block;

static uint8_t bytes_of_all[2 * ALIGNED];
static layout *all;
static uint64_t *filled; /* the side that blocks are taken from: its words, and which side it is */
static int filled_side;
static size_t used[2], block_count;
static block blocks[MOST_BLOCKS];
static bool is_wrong_block; /* whether a block was given back that was not out */

/* Blocks lie one after another, and none is used again. */
narbeddo_block rattle_alloc(size_t size, size_t align)
{
    uint8_t *bytes = (uint8_t *)filled;
    size_t most = sizeof all->first.words, from = (used[filled_side] + align - 1) / align * align;
    narbeddo_block answer = {false, bytes};
    if (size < most && from < most - size && block_count < MOST_BLOCKS) {
        block taken = {bytes + from, size, true};
        blocks[block_count++] = taken;
        used[filled_side] = from + (size != 0 ? size : 1);
        answer.ok = true;
        answer.at = taken.at;
    }
    return answer;
}

narbeddo_block rattle_realloc(void *at, size_t kept, size_t size, size_t align)
{
    narbeddo_block answer = rattle_alloc(size, align);
    if (answer.ok) {
        memcpy(answer.at, at, kept);
        rattle_dealloc(at);
    }
    return answer;
}

void rattle_dealloc(void *at)
{
    size_t i = 0;
    while (i < block_count && !(blocks[i].is_out && blocks[i].at == (uint8_t *)at)) {
        i++;
    }
    if (i < block_count) {
        blocks[i].is_out = false;
    } else {
        is_wrong_block = true;
    }
}

static side *fill(int number)
{
    side *of = number == 0 ? &all->first : &all->second;
    filled_side = number;
    filled = of->words;
    return of;
}

/* ---- one sample, and what is seen after it */
static int32_t moment, sample_count; /* samples since the bit was flipped */

static seen see(narbeddo_scale *scale, int32_t counts, char letter)
{
    seen it;
    it.statuses = narbeddo_sample(scale, counts);
    it.statuses = it.statuses * 16 + narbeddo_inputs(scale, (uint16_t)(moment % 7 == 0));
    it.statuses = it.statuses * 16 + narbeddo_byte(scale, '\n').status;
    it.statuses = it.statuses * 16 + narbeddo_byte(scale, (uint8_t)letter).status;
    it.answer = narbeddo_byte(scale, '\r');
    it.reading = narbeddo_read(scale);
    it.scanned = narbeddo_scan(scale, (uint64_t)moment * 10);
    it.engraved = narbeddo_plate(scale);
    return it;
}

static bool is_same_scan(const narbeddo_scanned *one, const narbeddo_scanned *two)
{
    return one->status == two->status && one->steps == two->steps && one->bits == two->bits && memcmp(one->words, two->words, sizeof one->words) == 0;
}

static bool is_same_plate(const narbeddo_engraved *one, const narbeddo_engraved *two)
{
    return one->status == two->status && memcmp(one->unit, two->unit, sizeof one->unit) == 0 && one->decimals == two->decimals && one->max == two->max &&
           one->e == two->e;
}

static bool is_same(const seen *one, const seen *two)
{
    return one->statuses == two->statuses && one->reading.status == two->reading.status && one->reading.flags == two->reading.flags &&
           memcmp(one->reading.weights, two->reading.weights, sizeof one->reading.weights) == 0 && one->answer.status == two->answer.status &&
           one->answer.length == two->answer.length && memcmp(one->answer.bytes, two->answer.bytes, sizeof one->answer.bytes) == 0 &&
           is_same_scan(&one->scanned, &two->scanned) && is_same_plate(&one->engraved, &two->engraved);
}

enum { AGREES, DIFFERS, BOTH_WRONG };

/* Feeds both scales until they differ, or are the same and wrong, or the parts end. With `is_right` what is seen is kept as right. */
static int feed(const part *parts, size_t count, bool is_right)
{
    size_t i;
    int32_t j;
    for (i = 0; i < count; i++) {
        for (j = 0; j < parts[i].samples; j++) {
            char letter = j == parts[i].samples - 1 ? parts[i].last : 'W';
            int32_t counts = parts[i].counts + j * parts[i].step;
            seen one = see(&all->first.scale, counts, letter), two = see(&all->second.scale, counts, letter);
            if (sample_count >= MOST_SAMPLES) {
                return BOTH_WRONG;
            }
            if (is_right) {
                all->right[sample_count] = two;
            }
            moment++;
            sample_count++;
            if (!is_same(&one, &two)) {
                return DIFFERS;
            }
            if (!is_same(&two, &all->right[sample_count - 1])) {
                return BOTH_WRONG;
            }
        }
    }
    return AGREES;
}

/* Changes the program of both scales to the same text, goes on, and closes them: then everything that they keep was read again. */
static int change_and_close(bool is_right)
{
    const uint8_t *text = (const uint8_t *)program;
    int found = DIFFERS;
    if (narbeddo_change(&fill(0)->scale, text, strlen(program)).status == NARBEDDO_DONE &&
        narbeddo_change(&fill(1)->scale, text, strlen(program)).status == NARBEDDO_DONE) {
        found = feed(changed, COUNT(changed), is_right);
    }
    if (found == AGREES) {
        found = narbeddo_close(&all->first.scale) == narbeddo_close(&all->second.scale) && !is_wrong_block ? AGREES : DIFFERS;
    }
    return found;
}

/* ---- one flipped bit */
enum { FIRST, UP_TO_4, UP_TO_16, UP_TO_256, LATER, ENDED, TOO_LONG, AT_CHANGE, WRITTEN_OVER, NEVER_WRITTEN, UNUSED, WRONG, KINDS };
static const char *const names[KINDS] = {
    "noticed after the first sample", "noticed after 2 to 4", "noticed after 5 to 16", "noticed after 17 to 256", "noticed later",
    "the process ended", "the process ran on", "noticed at a change or close", "not noticed: written over", "not noticed: never written",
    "not noticed: still flipped", "not noticed: both wrong"};

static int noticed_after(int32_t samples)
{
    return samples == 1 ? FIRST : samples <= 4 ? UP_TO_4 : samples <= 16 ? UP_TO_16 : samples <= 256 ? UP_TO_256 : LATER;
}

static void end_at_change(int number)
{
    (void)number;
    _exit(AT_CHANGE);
}

/* The outcome of a flipped bit; `at_end` is the byte at the end of a right run. */
static int kind_of(uint8_t *byte, uint8_t mask, uint8_t at_end)
{
    int found;
    *byte ^= mask;
    found = feed(after, COUNT(after), false);
    if (found != AGREES) {
        return found == DIFFERS ? noticed_after(sample_count) : WRONG;
    }
    if (((*byte ^ at_end) & mask) == 0) {
        return WRITTEN_OVER;
    }
    signal(SIGSEGV, end_at_change);
    signal(SIGBUS, end_at_change);
    signal(SIGXCPU, end_at_change);
    found = change_and_close(false);
    return found == AGREES ? UNUSED : found == DIFFERS ? AT_CHANGE : WRONG;
}

/* Tries a bit in a process of its own, which a wrong pointer may end. */
static int try_bit(uint8_t *byte, uint8_t mask, uint8_t at_end)
{
    int status = 0;
    pid_t child = fork();
    if (child == 0) {
        struct rlimit seconds = {2, 4}, none = {0, 0};
        setrlimit(RLIMIT_CPU, &seconds);
        setrlimit(RLIMIT_CORE, &none);
        _exit(kind_of(byte, mask, at_end));
    }
    if (child < 0 || waitpid(child, &status, 0) != child) {
        perror("two_scales");
        exit(2);
    }
    if (WIFEXITED(status) && WEXITSTATUS(status) < KINDS) {
        return WEXITSTATUS(status);
    }
    return WIFSIGNALED(status) && (WTERMSIG(status) == SIGXCPU || WTERMSIG(status) == SIGKILL) ? TOO_LONG : ENDED;
}

/* Tries each bit of some bytes, or one in `stride` of them, and counts the outcomes. */
static void try_bytes(uint8_t *bytes, const uint8_t *at_end, size_t count, size_t stride, long counts[KINDS])
{
    static size_t passed;
    size_t i;
    for (i = 0; i < 8 * count; i++) {
        if (passed++ % stride == 0) {
            int kind = try_bit(bytes + i / 8, (uint8_t)(1 << i % 8), at_end[i / 8]);
            counts[kind == UNUSED && at_end[i / 8] == NEVER ? NEVER_WRITTEN : kind]++;
        }
    }
}

static bool is_opened(int number)
{
    side *of = fill(number);
    memset(of, NEVER, sizeof *of);
    narbeddo_make(&of->scale);
    return narbeddo_open(&of->scale, (const uint8_t *)plate, strlen(plate)).status == NARBEDDO_DONE &&
           narbeddo_load(&of->scale, (const uint8_t *)program, strlen(program)).status == NARBEDDO_DONE;
}

/* Runs with no flipped bit, keeps what is seen and the first scale's memory before a change, and goes back to the beginning. */
static bool is_run_right(side *at_end)
{
    static side first, second;
    static block blocks_before[MOST_BLOCKS];
    int32_t moment_before = moment;
    size_t used_before[2] = {used[0], used[1]}, count_before = block_count;
    bool is_right;
    first = all->first;
    second = all->second;
    memcpy(blocks_before, blocks, sizeof blocks);
    is_right = feed(after, COUNT(after), true) == AGREES;
    *at_end = all->first;
    is_right = change_and_close(true) == AGREES && is_right;
    all->first = first;
    all->second = second;
    memcpy(blocks, blocks_before, sizeof blocks);
    moment = moment_before;
    memcpy(used, used_before, sizeof used);
    block_count = count_before;
    return is_right;
}

/* Prints the outcomes of all bits, and returns whether some were noticed and none left both scales wrong. */
static int print_counts(long counts[3][KINDS])
{
    long compared = 0, ended = 0, changed_or_closed = 0, unnoticed = 0;
    int kind;
    for (kind = 0; kind < KINDS; kind++) {
        long sum = counts[0][kind] + counts[1][kind] + counts[2][kind];
        printf("  %-32s %7ld %7ld %7ld\n", names[kind], counts[0][kind], counts[1][kind], counts[2][kind]);
        *(kind <= LATER ? &compared : kind <= TOO_LONG ? &ended : kind == AT_CHANGE ? &changed_or_closed : &unnoticed) += sum;
    }
    printf("noticed by the comparison %ld, by the end of the process %ld, at a change or close %ld; not noticed %ld\n", compared, ended,
           changed_or_closed, unnoticed);
    return compared != 0 && counts[0][WRONG] + counts[1][WRONG] + counts[2][WRONG] == 0;
}

int main(int count, char **words)
{
    static long counts[3][KINDS]; /* of the scale's own bytes, of the rest of its memory, of its blocks */
    static side at_end;
    size_t i, blocks_of_first, bytes = 0, held = 0, size = narbeddo_size(), stride = count == 2 ? strtoul(words[1], NULL, 10) : 1;
    all = (layout *)(bytes_of_all + (ALIGNED - (uintptr_t)bytes_of_all % ALIGNED) % ALIGNED);
    if (stride == 0 || sizeof(layout) > ALIGNED || size > sizeof(narbeddo_scale) || !is_opened(0)) {
        return 2;
    }
    blocks_of_first = block_count;
    if (!is_opened(1) || feed(before, COUNT(before), true) != AGREES) {
        return 2;
    }
    sample_count = 0;
    if (!is_run_right(&at_end)) {
        printf("two scales that are fed the same differ after sample %ld\n", (long)sample_count);
        return 1;
    }
    printf("bits of a scale of %lu bytes, of the %lu spare bytes after it, ", (unsigned long)size, (unsigned long)(sizeof(narbeddo_scale) - size));
    sample_count = 0;
    for (i = 0; i < blocks_of_first; i++) {
        bytes += blocks[i].is_out ? blocks[i].size : 0;
        held += blocks[i].is_out;
    }
    printf("and of the %lu bytes of its %lu blocks\n", (unsigned long)bytes, (unsigned long)held);
    fflush(stdout);
    try_bytes((uint8_t *)&all->first, (uint8_t *)&at_end, size, stride, counts[0]);
    try_bytes((uint8_t *)&all->first + size, (uint8_t *)&at_end + size, sizeof(narbeddo_scale) - size, stride, counts[1]);
    for (i = 0; i < blocks_of_first; i++) {
        if (blocks[i].is_out) {
            try_bytes(blocks[i].at, (uint8_t *)&at_end + (blocks[i].at - (uint8_t *)&all->first), blocks[i].size, stride, counts[2]);
        }
    }
    return print_counts(counts) ? 0 : 1;
}
