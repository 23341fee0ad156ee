/* Bad arguments, and memory that is refused: each call must say so and change nothing. It is built with the compiler's checks of addresses
 * and of undefined behaviour. Each text is in a block of exactly its size, so that a read past its end is detected. */
#include "narbeddo.h"

#include <stdio.h>
#include <stdlib.h>
#include <string.h>

static unsigned long asked, refuse_from, tried_count, failed_count, blocks;

static bool is_refused(void)
{
    asked++;
    return refuse_from != 0 && asked >= refuse_from;
}

narbeddo_block rattle_alloc(size_t size, size_t align)
{
    static char none;
    narbeddo_block answer = {false, &none};
    if (!is_refused()) {
        answer.at = malloc(size != 0 ? size : align);
        answer.ok = answer.at != NULL;
        blocks += answer.ok;
    }
    return answer;
}

narbeddo_block rattle_realloc(void *at, size_t kept, size_t size, size_t align)
{
    static char none;
    narbeddo_block answer = {false, &none};
    (void)kept;
    if (!is_refused()) {
        answer.at = realloc(at, size != 0 ? size : align);
        answer.ok = answer.at != NULL;
    }
    return answer;
}

void rattle_dealloc(void *at)
{
    blocks--;
    free(at);
}

static void is(const char *what, unsigned long found, unsigned long expected)
{
    tried_count++;
    if (found != expected) {
        failed_count++;
        printf("%s: %lu and not %lu\n", what, found, expected);
    }
}

/* A text in a block of just its size. */
static uint8_t *exact(const char *text)
{
    size_t length = strlen(text);
    uint8_t *block = malloc(length != 0 ? length : 1);
    if (block == NULL) {
        exit(2);
    }
    memcpy(block, text, length);
    return block;
}

static narbeddo_refusal open_by(narbeddo_scale *scale, const char *text)
{
    uint8_t *block = exact(text);
    narbeddo_refusal refusal = narbeddo_open(scale, block, strlen(text));
    free(block);
    return refusal;
}

static const char good_plate[] = "unit = \"kg\"\ndecimals = 3\nmax = 15000\ne = 5\nzero_counts = 10000\nspan_counts = 600000\nwindow = 4\n";
static const char counting[] = "FUNCTION_BLOCK Sum\nVAR_INPUT x : DINT; END_VAR\nVAR_OUTPUT y : DINT; END_VAR\nLD y\nADD x\nST y\nEND_FUNCTION_BLOCK\n"
                               "PROGRAM P\nVAR a : Sum; t : TON; END_VAR\nCAL a(x := 1)\nCAL t(IN := TRUE, PT := T#1s)\nLD a.y\nST %QD0\nLD t.Q\nST %QX0.3\nEND_PROGRAM\n";
static const char doubling[] = "PROGRAM P\nVAR t : TON; END_VAR\nCAL t(IN := TRUE, PT := T#1s)\nLD t.ET\nGT T#0s\nST %QX0.0\nEND_PROGRAM\n";

/* Everything that a closed scale answers. */
static void closed(narbeddo_scale *scale)
{
    static const uint8_t text[1] = {0};
    is("sample of a closed scale", narbeddo_sample(scale, 0), NARBEDDO_CLOSED);
    is("byte of a closed scale", narbeddo_byte(scale, 10).status, NARBEDDO_CLOSED);
    is("inputs of a closed scale", narbeddo_inputs(scale, 1), NARBEDDO_CLOSED);
    is("scan of a closed scale", narbeddo_scan(scale, 0).status, NARBEDDO_CLOSED);
    is("reading of a closed scale", narbeddo_read(scale).status, NARBEDDO_CLOSED);
    is("plate of a closed scale", narbeddo_plate(scale).status, NARBEDDO_CLOSED);
    is("digest of a closed scale", narbeddo_plate_digest(scale).status, NARBEDDO_CLOSED);
    is("bytes of a closed scale's digest", narbeddo_plate_digest(scale).bytes[31], 0);
    is("load into a closed scale", narbeddo_load(scale, text, 0).status, NARBEDDO_CLOSED);
    is("change of a closed scale", narbeddo_change(scale, text, 0).status, NARBEDDO_CLOSED);
    is("value of a closed scale", narbeddo_value(scale, text, 0).status, NARBEDDO_CLOSED);
}

/* The value of a variable, by a name in a block of just its size. */
static narbeddo_variable value_of(narbeddo_scale *scale, const char *name)
{
    uint8_t *block = exact(name);
    narbeddo_variable value = narbeddo_value(scale, block, strlen(name));
    free(block);
    return value;
}

/* What is engraved on a scale with the plate below. */
static void plate(narbeddo_scale *scale)
{
    narbeddo_engraved engraved = narbeddo_plate(scale);
    is("plate", engraved.status, NARBEDDO_DONE);
    is("unit", (unsigned long)memcmp(engraved.unit, "kg ", 3), 0);
    is("decimals", (unsigned long)engraved.decimals, 3);
    is("Max", (unsigned long)engraved.max, 15000);
    is("e", (unsigned long)engraved.e, 5);
}

static void rows(narbeddo_scale *scale)
{
    static const char *ask = "\nW\r";
    uint32_t length = 0;
    narbeddo_answer answer = {0, 0, {0}};
    is("counts below", narbeddo_sample(scale, -8388609), NARBEDDO_COUNTS_OUT_OF_RANGE);
    is("counts above", narbeddo_sample(scale, 8388608), NARBEDDO_COUNTS_OUT_OF_RANGE);
    is("least counts", narbeddo_sample(scale, INT32_MIN), NARBEDDO_COUNTS_OUT_OF_RANGE);
    for (; *ask != '\0'; ask++) {
        answer = narbeddo_byte(scale, (uint8_t)*ask);
        length += answer.length;
    }
    is("no sample was taken", answer.bytes[1], 'I');
    is("length of an answer", length, 20);
    is("last byte of an answer", answer.bytes[19], '\r');
    is("counts in range", narbeddo_sample(scale, -8388608), NARBEDDO_DONE);
    is("counts in range", narbeddo_sample(scale, 8388607), NARBEDDO_DONE);
    is("scan with no program", narbeddo_scan(scale, 5).status, NARBEDDO_NO_PROGRAM);
    is("value with no program", value_of(scale, "a").status, NARBEDDO_NO_PROGRAM);
    is("change with no program", narbeddo_change(scale, (const uint8_t *)counting, strlen(counting)).status, NARBEDDO_NO_PROGRAM);
}

/* How many of these bytes are not 0. */
static unsigned long others(const void *bytes, size_t count)
{
    unsigned long found = 0;
    size_t i;
    for (i = 0; i < count; i++) {
        found += ((const uint8_t *)bytes)[i] != 0;
    }
    return found;
}

/* What is next to a status is 0 if there is nothing to report: after two samples, with a request that is open, and of texts that are refused. */
static void zeros(narbeddo_scale *scale)
{
    static const uint8_t wrong[] = "PROGRAM P\nLD x\nEND_PROGRAM\n";
    uint32_t lines[1] = {77};
    narbeddo_answer answer = narbeddo_byte(scale, '\n');
    narbeddo_state prelude = narbeddo_prelude(scale);
    narbeddo_unit refused = narbeddo_about(wrong, sizeof wrong - 1, 0), missing = narbeddo_about((const uint8_t *)counting, strlen(counting), 2);
    is("bytes of no answer", others(answer.bytes, sizeof answer.bytes), 0);
    is("zero is not set", prelude.has_zero, 0);
    is("and its sample", (unsigned long)prelude.zero, 0);
    is("tare is not set", prelude.has_tare, 0);
    is("and its sample", (unsigned long)prelude.tare, 0);
    is("samples", prelude.count, 2);
    is("after the samples", others(prelude.samples + 2, sizeof prelude.samples - 2 * sizeof prelude.samples[0]), 0);
    is("an open request", prelude.length, 1);
    is("after the request", others(prelude.request + 1, sizeof prelude.request - 1), 0);
    answer = narbeddo_byte(scale, '\r');
    is("bytes after an answer", others(answer.bytes + answer.length, sizeof answer.bytes - answer.length), 0);
    is("a refused text", refused.text.number, 401);
    is("its units", refused.units, 0);
    is("its bound", refused.bound, 0);
    is("its length", refused.length, 0);
    is("its name", others(refused.name, sizeof refused.name), 0);
    is("no such unit", missing.text.status, NARBEDDO_NO_UNIT);
    is("its units", missing.units, 0);
    is("its bound", missing.bound, 0);
    is("its name", others(missing.name, sizeof missing.name), 0);
    is("a path of a refused text", narbeddo_path(wrong, sizeof wrong - 1, 0, lines, 1).length, 0);
    is("a path of no unit", narbeddo_path((const uint8_t *)counting, strlen(counting), 2, lines, 1).length, 0);
}

static void moments(narbeddo_scale *scale)
{
    is("a moment", narbeddo_scan(scale, 7).words[0], 1);
    is("the same moment", narbeddo_scan(scale, 7).words[0], 2);
    is("a moment before", narbeddo_scan(scale, 6).status, NARBEDDO_MOMENT_BACK);
    is("a moment too late", narbeddo_scan(scale, 1099511627776u).status, NARBEDDO_MOMENT_OUT_OF_RANGE);
    is("the latest number", narbeddo_scan(scale, UINT64_MAX).status, NARBEDDO_MOMENT_OUT_OF_RANGE);
    is("no scan was done by these", narbeddo_scan(scale, 8).words[0], 3);
    is("what is shown", narbeddo_read(scale).flags & NARBEDDO_OVER, NARBEDDO_OVER);
}

/* Values after the three scans above: a counts them, and t was started at 7 ms. */
static void values(narbeddo_scale *scale)
{
    static const char *const unknown[] = {"", ".", "a", "a.", ".y", "a.z", "a.y.y", "b", "t.start", "%", "%QX0.16", "%QX0.3.Q", "a y", "a.y ", "1"};
    size_t i;
    is("a DINT", (unsigned long)value_of(scale, "a.y").number, 3);
    is("its kind", value_of(scale, "A.Y").kind, NARBEDDO_DINT);
    is("a TIME", (unsigned long)value_of(scale, "t.et").number, 1);
    is("its kind", value_of(scale, "t.ET").kind, NARBEDDO_TIME);
    is("a preset", (unsigned long)value_of(scale, "t.PT").number, 1000);
    is("a BOOL", (unsigned long)value_of(scale, "t.IN").number, 1);
    is("its kind", value_of(scale, "t.IN").kind, NARBEDDO_BOOL);
    is("an output word", (unsigned long)value_of(scale, "%QD0").number, 3);
    is("an output", (unsigned long)value_of(scale, "%qx0.3").number, 0);
    for (i = 0; i < sizeof unknown / sizeof unknown[0]; i++) {
        narbeddo_variable value = value_of(scale, unknown[i]);
        is(unknown[i], value.status, NARBEDDO_NO_VARIABLE);
        is("no kind", value.kind, 0);
        is("no number", (unsigned long)value.number, 0);
    }
    asked = 0;
    refuse_from = 1;
    is("no memory for a name", value_of(scale, "a.y").status, NARBEDDO_NO_MEMORY);
    refuse_from = 0;
    is("the name again", value_of(scale, "a.y").status, NARBEDDO_DONE);
}

static void texts(narbeddo_scale *scale)
{
    narbeddo_refusal refusal = narbeddo_load(scale, (const uint8_t *)"", 0);
    uint32_t lines[8] = {77, 77, 77, 77, 77, 77, 77, 77};
    is("no text", refusal.status, NARBEDDO_REFUSED);
    is("its number", refusal.number, 203);
    refusal = narbeddo_change(scale, (const uint8_t *)"PROGRAM P\nLD 1\nST %QX0.0\nEND_PROGRAM\n", 37);
    is("a text that breaks a rule", refusal.number, 402);
    is("its line", refusal.place, 3);
    is("the program stays", narbeddo_scan(scale, 9).words[0], 4);
    is("no unit", narbeddo_about((const uint8_t *)counting, strlen(counting), 2).text.status, NARBEDDO_NO_UNIT);
    is("units", narbeddo_about((const uint8_t *)counting, strlen(counting), 0).units, 2);
    is("a name", narbeddo_about((const uint8_t *)counting, strlen(counting), 0).name[0], 'S');
    is("the byte after a name", narbeddo_about((const uint8_t *)counting, strlen(counting), 0).name[3], 0);
    is("the last byte after a name", narbeddo_about((const uint8_t *)counting, strlen(counting), 0).name[31], 0);
    is("a bound", narbeddo_about((const uint8_t *)counting, strlen(counting), 1).bound, 13);
    is("a path in too small a buffer", narbeddo_path((const uint8_t *)counting, strlen(counting), 1, lines, 5).text.status, NARBEDDO_NO_ROOM);
    is("nothing was written to it", lines[0], 77);
    is("a path", narbeddo_path((const uint8_t *)counting, strlen(counting), 1, lines, 6).length, 6);
    is("its first line", lines[0], 10);
    is("nothing after it", lines[6], 77);
}

/* Refuses memory from the nth allocation on, until there is enough. */
static void out_of_memory(void)
{
    narbeddo_scale scale;
    unsigned long n;
    uint32_t status = NARBEDDO_NO_MEMORY;
    narbeddo_make(&scale);
    for (n = 1; status == NARBEDDO_NO_MEMORY; n++) {
        asked = 0;
        refuse_from = n;
        status = open_by(&scale, good_plate).status;
    }
    is("opened in the end", status, NARBEDDO_DONE);
    for (n = 1, status = NARBEDDO_NO_MEMORY; status == NARBEDDO_NO_MEMORY; n++) {
        asked = 0;
        refuse_from = n;
        status = narbeddo_load(&scale, (const uint8_t *)counting, strlen(counting)).status;
    }
    is("loaded in the end", status, NARBEDDO_DONE);
    is("a scan", narbeddo_scan(&scale, 3).words[0], 1);
    for (n = 1, status = NARBEDDO_NO_MEMORY; status == NARBEDDO_NO_MEMORY; n++) {
        asked = 0;
        refuse_from = n;
        status = narbeddo_change(&scale, (const uint8_t *)doubling, strlen(doubling)).status;
        if (status == NARBEDDO_NO_MEMORY) {
            is("the program stays", narbeddo_scan(&scale, 3).words[0], n + 1);
        }
    }
    refuse_from = 0;
    is("changed in the end", status, NARBEDDO_DONE);
    is("the timer went on", narbeddo_scan(&scale, 4).bits, 1);
    is("a moment before", narbeddo_scan(&scale, 2).status, NARBEDDO_MOMENT_BACK);
    narbeddo_close(&scale);
    is("blocks that were not given back", blocks, 0);
}

int main(void)
{
    narbeddo_scale scale;
    is("the size of a scale", narbeddo_size() <= sizeof scale, 1);
    memset(&scale, 0xa5, sizeof scale);
    narbeddo_make(&scale);
    closed(&scale);
    is("close a closed scale", narbeddo_close(&scale), NARBEDDO_DONE);
    is("no plate", open_by(&scale, "").number, 502);
    is("no TOML", open_by(&scale, "unit = ").number, 501);
    closed(&scale);
    is("a plate", open_by(&scale, good_plate).status, NARBEDDO_DONE);
    is("open again", open_by(&scale, good_plate).status, NARBEDDO_ALREADY_OPEN);
    plate(&scale);
    rows(&scale);
    zeros(&scale);
    is("a program", narbeddo_load(&scale, (const uint8_t *)counting, strlen(counting)).status, NARBEDDO_DONE);
    moments(&scale);
    values(&scale);
    texts(&scale);
    is("close", narbeddo_close(&scale), NARBEDDO_DONE);
    is("blocks that were not given back", blocks, 0);
    closed(&scale);
    out_of_memory();
    printf("%lu passed, %lu failed\n", tried_count - failed_count, failed_count);
    return failed_count != 0;
}
