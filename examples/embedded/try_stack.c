/* Measures how many bytes of stack the calls with a text or a name take: each runs on a stack of its own, which is painted before it.
 *
 * The program has 64 units, each with an instance of the one before, and parentheses in parentheses: the deepest names and lines that there are.
 * It prints a line for each call, `narbeddo_load 9440`. Frames that a call does not fill to their end are counted as far as they are filled. */
#define _XOPEN_SOURCE 700
#include "narbeddo.h"

#include <stdio.h>
#include <string.h>
#include <ucontext.h>

#define UNITS 64
#define DEEPEST 8 /* parentheses */
#define STACK (4u << 20)
#define PAINT 0xa5

static const char plate[] = "unit = \"kg\"\ndecimals = 3\nmax = 15000\ne = 5\nzero_counts = 10000\nspan_counts = 600000\nwindow = 4\n";
static char program[16384], name[2 * UNITS + 1];
static size_t program_length;
static uint8_t stack[STACK];
static ucontext_t before, on_stack;
static void (*measured)(void);
static narbeddo_scale scale;
static uint32_t status, lines[64];

static void put(const char *text)
{
    size_t length = strlen(text);
    memcpy(program + program_length, text, length);
    program_length += length;
}

static void make_program(void)
{
    char line[128];
    int unit, depth;
    for (unit = 1; unit < UNITS; ++unit) {
        sprintf(line, unit == 1 ? "FUNCTION_BLOCK U%d\nVAR x : BOOL; END_VAR\n" : "FUNCTION_BLOCK U%d\nVAR b : U%d; END_VAR\nCAL b\n", unit, unit - 1);
        put(line);
        put("END_FUNCTION_BLOCK\n");
        strcat(name, "b.");
    }
    strcat(name, "x");
    sprintf(line, "PROGRAM P\nVAR b : U%d; END_VAR\nCAL b\nLD TRUE\n", UNITS - 1);
    put(line);
    for (depth = 0; depth < DEEPEST; ++depth) {
        put("AND(\nLD TRUE\n");
    }
    for (depth = 0; depth < DEEPEST; ++depth) {
        put(")\n");
    }
    put("ST %QX0.0\nEND_PROGRAM\n");
}

static void nothing(void)
{
    status = NARBEDDO_DONE;
}

static void open_scale(void)
{
    status = narbeddo_open(&scale, (const uint8_t *)plate, sizeof plate - 1).status;
}

static void load(void)
{
    status = narbeddo_load(&scale, (const uint8_t *)program, program_length).status;
}

static void change(void)
{
    status = narbeddo_change(&scale, (const uint8_t *)program, program_length).status;
}

static void value(void)
{
    status = narbeddo_value(&scale, (const uint8_t *)name, strlen(name)).status;
}

static void about(void)
{
    status = narbeddo_about((const uint8_t *)program, program_length, UNITS - 1).text.status;
}

static void path(void)
{
    status = narbeddo_path((const uint8_t *)program, program_length, UNITS - 1, lines, 64).text.status;
}

static void enter(void)
{
    measured();
}

/* The bytes of stack up to the lowest that the call wrote; 0: it was not done. */
static size_t taken_by(void (*call)(void))
{
    size_t left = 0;
    memset(stack, PAINT, sizeof stack);
    measured = call;
    getcontext(&on_stack);
    on_stack.uc_stack.ss_sp = stack;
    on_stack.uc_stack.ss_size = sizeof stack;
    on_stack.uc_link = &before;
    makecontext(&on_stack, enter, 0);
    swapcontext(&before, &on_stack);
    while (left < sizeof stack && stack[left] == PAINT) {
        ++left;
    }
    return status == NARBEDDO_DONE ? sizeof stack - left : 0;
}

int main(void)
{
    static const struct {
        const char *name;
        void (*call)(void);
    } calls[] = {{"open", open_scale}, {"load", load}, {"change", change}, {"value", value}, {"about", about}, {"path", path}};
    size_t number, around = taken_by(nothing);
    make_program();
    narbeddo_make(&scale);
    for (number = 0; number < sizeof calls / sizeof *calls; ++number) {
        size_t taken = taken_by(calls[number].call);
        if (taken == 0) {
            fprintf(stderr, "narbeddo_%s: not done, status %u\n", calls[number].name, (unsigned)status);
            return 1;
        }
        printf("narbeddo_%s %zu\n", calls[number].name, taken - around);
    }
    narbeddo_close(&scale);
    return 0;
}
