/* A scale on a processor with no operating system and no C library: aarch64, here the machine `virt` of QEMU with its serial port.
 *
 *     aarch64-linux-gnu-gcc -std=c99 -O2 -ffreestanding -fno-tree-loop-distribute-patterns -nostdlib -static -DREGION=8192 -Iinclude \
 *         -Wl,-Ttext=0x40100000 -Wl,-e,start -o bare examples/embedded/bare.c examples/embedded/memory_region.c libnarbeddo.a
 *     qemu-system-aarch64 -M virt -cpu cortex-a53 -nographic -semihosting -kernel bare
 *
 * All that it has is a stack of 16 KB, a region of 8 KB for the library, and the three functions of the C library that the library calls. It
 * prints what bare.txt has. The code before `run` is QEMU's: on a board of yours it also turns on the memory management unit, without which
 * the processor takes no address that is not aligned. */
#include "narbeddo.h"

#define STACK "16384"

/* The stack, and the first instructions: floating point registers are allowed, since compilers use them to copy. */
__asm__(".bss\n"
        ".balign 16\n"
        ".skip " STACK "\n"
        "stack_end:\n"
        ".text\n"
        ".global start\n"
        "start:\n"
        "    mrs x0, cpacr_el1\n"
        "    orr x0, x0, #(3 << 20)\n"
        "    msr cpacr_el1, x0\n"
        "    isb\n"
        "    adrp x0, stack_end\n"
        "    add x0, x0, :lo12:stack_end\n"
        "    mov sp, x0\n"
        "    bl run\n");

void run(void);
void *memcpy(void *restrict to, const void *restrict from, size_t size);
void *memmove(void *to, const void *from, size_t size);
void *memset(void *to, int byte, size_t size);

void *memcpy(void *restrict to, const void *restrict from, size_t size)
{
    return memmove(to, from, size);
}

void *memmove(void *to, const void *from, size_t size)
{
    unsigned char *into = to;
    const unsigned char *out_of = from;
    size_t at;
    if (into <= out_of) {
        for (at = 0; at < size; ++at) {
            into[at] = out_of[at];
        }
    } else {
        for (at = size; at > 0; --at) {
            into[at - 1] = out_of[at - 1];
        }
    }
    return to;
}

void *memset(void *to, int byte, size_t size)
{
    unsigned char *into = to;
    size_t at;
    for (at = 0; at < size; ++at) {
        into[at] = (unsigned char)byte;
    }
    return to;
}

/* The serial port of the machine. */
static void put(const char *text)
{
    volatile uint32_t *port = (volatile uint32_t *)0x09000000;
    for (; *text != 0; ++text) {
        *port = (uint32_t)(unsigned char)*text;
    }
}

static void put_number(uint32_t number)
{
    char digits[11];
    int at = 10;
    digits[10] = 0;
    do {
        digits[--at] = (char)('0' + number % 10);
        number /= 10;
    } while (number != 0);
    put(digits + at);
}

/* Ends the emulator with a status. */
static void end(uint64_t status)
{
    uint64_t reason[2] = {0x20026, 0};
    register uint64_t call __asm__("x0") = 0x18;
    register uint64_t *values __asm__("x1") = reason;
    reason[1] = status;
    __asm__ volatile("hlt #0xf000" : : "r"(call), "r"(values) : "memory");
}

static void need(const char *what, uint32_t status)
{
    if (status != NARBEDDO_DONE) {
        put(what);
        put(": status ");
        put_number(status);
        put("\n");
        end(1);
    }
}

static const char plate[] = "unit = \"kg\"\ndecimals = 3\nmax = 15000\ne = 5\nzero_counts = 10000\nspan_counts = 600000\nwindow = 4\n";
/* The program: valve 0 is open while the net weight is below 1000 units and the weight is valid. */
static const char program[] = "PROGRAM Valve\nLD %ID1\nLT 1000\nAND %IX1.5\nST %QX0.0\nEND_PROGRAM\n";
static narbeddo_scale scale;

/* A request of one letter, and its answer. */
static void ask(uint8_t letter)
{
    narbeddo_answer answer;
    char text[21] = {0};
    uint32_t at;
    need("byte", narbeddo_byte(&scale, 10).status);
    need("byte", narbeddo_byte(&scale, letter).status);
    answer = narbeddo_byte(&scale, 13);
    need("byte", answer.status);
    for (at = 1; at + 1 < answer.length; ++at) {
        text[at - 1] = (char)answer.bytes[at];
    }
    put(text);
    put("\n");
}

static void weigh(int32_t counts, uint64_t ms)
{
    narbeddo_scanned scanned;
    int sample;
    for (sample = 0; sample < 4; ++sample) {
        need("sample", narbeddo_sample(&scale, counts));
    }
    ask('W');
    scanned = narbeddo_scan(&scale, ms);
    need("scan", scanned.status);
    put("valve ");
    put_number(scanned.bits & 1);
    put("\n");
}

void run(void)
{
    narbeddo_make(&scale);
    need("open", narbeddo_open(&scale, (const uint8_t *)plate, sizeof plate - 1).status);
    need("load", narbeddo_load(&scale, (const uint8_t *)program, sizeof program - 1).status);
    weigh(10000, 0);
    weigh(50000, 100);
    ask('T');
    weigh(50000, 200);
    narbeddo_close(&scale);
    put("closed\n");
    end(0);
}
