/* Narbeddo in a program of your own: a weighing indicator with its line, and next to it the customer's program.
 *
 *     narbeddo_scale scale;                              the memory of one scale, wherever you like: static, on the stack, in a struct
 *     narbeddo_make(&scale);                             once, before anything else; it is closed then
 *     narbeddo_open(&scale, plate, plate_length);        the text of the plate (TOML)
 *     narbeddo_load(&scale, text, text_length);          a program (Instruction List), or none at all
 *
 *     narbeddo_sample(&scale, counts);                   each sample of the load cell
 *     narbeddo_byte(&scale, byte);                       each byte from the line; send the answer
 *     narbeddo_inputs(&scale, bits);                     the digital inputs from now on
 *     narbeddo_scan(&scale, milliseconds);               one scan of the program: its steps and its outputs
 *
 *     narbeddo_close(&scale);                            frees all memory
 *
 * docs/EMBEDDING.md says what is proved of these calls and what you owe them; examples/embedded/ has two whole programs. In short:
 *
 *   - Each call returns a status, which says whether it was done. If it was not, it has changed nothing.
 *   - narbeddo_open, narbeddo_load, narbeddo_change, narbeddo_value, narbeddo_about and narbeddo_path allocate memory by your functions; no
 *     other call does, and none of those others can fail on arguments in range.
 *   - A scale stays on the thread that made it, and no call comes from a signal handler. There may be any number of scales.
 *   - A pointer is never null, and points to what its type says; a text of no bytes needs an address too.
 */
#ifndef NARBEDDO_H
#define NARBEDDO_H

#include <stdbool.h>
#include <stddef.h>
#include <stdint.h>

/* The library is for processors whose pointers have 64 bits: its structs would lie otherwise in memory on others (docs/EMBEDDING.md, section 1). */
#if UINTPTR_MAX != UINT64_MAX
#error "narbeddo is for pointers of 64 bits"
#endif

/* The version of this header. narbeddo_identify returns that of the library: both are of one release. */
#define NARBEDDO_VERSION "0.1.0"

#ifdef __cplusplus
extern "C" {
#endif

/* The status of a call. If several statuses apply, the first of these in the line of the call is returned:
 *
 *     narbeddo_open                      ALREADY_OPEN, then REFUSED or NO_MEMORY
 *     narbeddo_load                      CLOSED, then REFUSED or NO_MEMORY; after it any time is accepted
 *     narbeddo_change                    CLOSED, NO_PROGRAM, then REFUSED or NO_MEMORY; the time of the last scan stays
 *     narbeddo_sample                    CLOSED, COUNTS_OUT_OF_RANGE
 *     narbeddo_byte, _inputs, _read, _plate, _plate_digest, _prelude    CLOSED (and of a byte LINE_FAILED, which never comes)
 *     narbeddo_scan                      CLOSED, NO_PROGRAM, MOMENT_OUT_OF_RANGE, MOMENT_BACK
 *     narbeddo_value                     CLOSED, NO_PROGRAM, then NO_MEMORY or NO_VARIABLE
 *     narbeddo_about, narbeddo_path      REFUSED, NO_MEMORY or NO_UNIT; of a path also NO_ROOM
 *     narbeddo_close                     DONE alone
 */
#define NARBEDDO_DONE 0                /* the call was done */
#define NARBEDDO_REFUSED 1             /* a text breaks a rule: number and place say which and where (docs/REFUSALS.md) */
#define NARBEDDO_NO_MEMORY 2           /* your allocator had none left */
#define NARBEDDO_CLOSED 3              /* the scale was not opened, or was closed */
#define NARBEDDO_ALREADY_OPEN 4        /* close it first */
#define NARBEDDO_NO_PROGRAM 5          /* load one first */
#define NARBEDDO_COUNTS_OUT_OF_RANGE 6 /* below -8388608 or above 8388607 */
#define NARBEDDO_MOMENT_OUT_OF_RANGE 7 /* above 1099511627775, some 34 years of milliseconds */
#define NARBEDDO_MOMENT_BACK 8         /* before the time of the last scan; the same time again is accepted */
#define NARBEDDO_LINE_FAILED 9         /* proved: never of a scale that was made and opened by the calls below */
#define NARBEDDO_NO_UNIT 10            /* the text has no unit of that number */
#define NARBEDDO_NO_ROOM 11            /* the buffer is too small, and nothing was written to it */
#define NARBEDDO_NO_VARIABLE 12        /* the program has no variable of that name */

/* The memory of a scale. Its contents belong to the library. narbeddo_size() is at most its size: the library and this header belong together. */
#define NARBEDDO_WORDS 48
typedef struct narbeddo_scale {
    uint64_t words[NARBEDDO_WORDS];
} narbeddo_scale;

/* Comments that begin with an @ are for Frama-C, in ACSL (docs/EMBEDDING.md, section 3): what a call requires of its pointers, what it writes,
 * and what its result may be. Each `ensures` repeats, for a scale that the calls below made, the clause or relation of its export that it is
 * named for (crates/narbeddo, crates/wc_scale). What a call writes does not include the blocks that your three memory functions returned.
 * A tool can check that storage is large enough and aligned, and that a scale has been written to; it cannot check what is in it. */
/*@ predicate narbeddo_is_storage{L}(narbeddo_scale *scale) = \valid{L}(scale) && \offset{L}(scale) % 8 == 0;
    predicate narbeddo_is_scale{L}(narbeddo_scale *scale) = narbeddo_is_storage{L}(scale) && \initialized{L}(&scale->words[0]);
    predicate narbeddo_is_readable{L}(narbeddo_scale *scale) = \valid_read{L}(scale) && \offset{L}(scale) % 8 == 0 && \initialized{L}(&scale->words[0]);
    predicate narbeddo_is_text{L}(uint8_t *text, integer length) = text != \null && \valid_read{L}(text + (0 .. length - 1)); */

/* The result for a text: the status; if it is NARBEDDO_REFUSED, the number of the rule that is broken and the line (0 of a plate). */
typedef struct narbeddo_refusal {
    uint32_t status;
    uint32_t number;
    uint32_t place;
} narbeddo_refusal;

/* The answer of the line to one byte: most bytes have none (length 0). */
typedef struct narbeddo_answer {
    uint32_t status;
    uint32_t length; /* at most 20 */
    uint8_t bytes[20];
} narbeddo_answer;

/* One scan: how many steps it took, never more than narbeddo_about said, and all outputs. */
typedef struct narbeddo_scanned {
    uint32_t status;
    uint32_t steps;
    uint32_t bits;     /* bit i is %QX0.i, 0 to 15 */
    int32_t words[4];  /* %QD0 to %QD3 */
} narbeddo_scanned;

/* What is engraved on the scale, for a display to show with the weights. */
typedef struct narbeddo_engraved {
    uint32_t status;
    uint8_t unit[3];  /* as on the line: "kg ", "g  " or "t  ", with no zero after it */
    int32_t decimals; /* digits after the point of a weight, 0 to 3 */
    int32_t max;      /* the greatest load (Max), in units of the last decimal */
    int32_t e;        /* the scale interval (e), in units of the last decimal */
} narbeddo_engraved;

/* The digest of a plate: SHA-256 of its seven lines. */
typedef struct narbeddo_digest {
    uint32_t status;
    uint8_t bytes[32];   /* zeros of a closed scale */
} narbeddo_digest;

/* What the indicator shows, for a display. Weights are in units of the plate's last decimal, and 0 while it is not valid. */
typedef struct narbeddo_reading {
    uint32_t status;
    uint32_t flags;      /* NARBEDDO_STABLE and the others */
    int32_t weights[3];  /* gross, net, tare */
} narbeddo_reading;

#define NARBEDDO_STABLE 1
#define NARBEDDO_OVER 2
#define NARBEDDO_UNDER 4
#define NARBEDDO_CENTRE_OF_ZERO 8
#define NARBEDDO_TARE_ACTIVE 16
#define NARBEDDO_VALID 32

/* What identifies the library: texts, each ended by a zero. docs/ASSESSMENT.md says how they are compared with sources. */
typedef struct narbeddo_identity {
    char version[16];    /* of the product */
    char toolchain[48];  /* the toolchain that the sources are for: its kit, and the sum of its logic */
    char legal_part[65]; /* SHA-256 over the legally relevant sources, in hexadecimal */
    char data_path[65];  /* SHA-256 over the sources that pass samples, line bytes and answers on, this header among them */
} narbeddo_identity;

/* What identifies the library, for a display: the call needs no scale, and is always done. */
/*@ assigns \result \from \nothing;
    ensures IsThisVersion: \result.version[15] == 0 && \result.toolchain[47] == 0 && \result.legal_part[64] == 0 && \result.data_path[64] == 0; */
narbeddo_identity narbeddo_identify(void);

/* Makes a closed scale in this memory, whatever its contents: so never call it on an open scale. */
/*@ requires narbeddo_is_storage(scale);
    assigns *scale \from \nothing;
    ensures lies_at: narbeddo_is_scale(scale); */
void narbeddo_make(narbeddo_scale *scale);

/* How many bytes a scale takes. */
/*@ assigns \result \from \nothing;
    ensures most: \result <= sizeof(narbeddo_scale); */
size_t narbeddo_size(void);

/* Opens the scale by its plate: it then has no samples and no line bytes, its inputs are 0, and it has no program. */
/*@ requires narbeddo_is_scale(scale) && narbeddo_is_text(plate, length) && \separated(scale, plate + (0 .. length - 1));
    assigns *scale, \result \from *scale, plate[0 .. length - 1];
    ensures lies_at: narbeddo_is_scale(scale);
    ensures RefusesOpen: \result.status <= NARBEDDO_NO_MEMORY || \result.status == NARBEDDO_ALREADY_OPEN;
    ensures RefusesOpen: \result.status == NARBEDDO_REFUSED ==> 501 <= \result.number <= 508;
    ensures RefusesOpen: \result.status != NARBEDDO_REFUSED ==> \result.number == 0;
    ensures RefusesOpen: \result.place == 0; */
narbeddo_refusal narbeddo_open(narbeddo_scale *scale, const uint8_t *plate, size_t length);

/* Closes the scale. It may be opened again. */
/*@ requires narbeddo_is_scale(scale);
    assigns *scale, \result \from *scale;
    ensures lies_at: narbeddo_is_scale(scale);
    ensures done: \result == NARBEDDO_DONE; */
uint32_t narbeddo_close(narbeddo_scale *scale);

/* Loads a program, with its first values; it replaces one that was loaded, which stays if the text is refused.
 * THE TEXT IS NOT COPIED: it must stay where it is, unchanged, until the scale is closed or has another program. */
/*@ requires narbeddo_is_scale(scale) && narbeddo_is_text(text, length) && \separated(scale, text + (0 .. length - 1));
    assigns *scale, \result \from *scale, text[0 .. length - 1];
    ensures lies_at: narbeddo_is_scale(scale);
    ensures RefusesLoad: \result.status <= NARBEDDO_CLOSED;
    ensures RefusesLoad: \result.status != NARBEDDO_REFUSED ==> \result.number == 0 && \result.place == 0; */
narbeddo_refusal narbeddo_load(narbeddo_scale *scale, const uint8_t *text, size_t length);

/* Changes the program between two scans: outputs, and variables of the same name and type in both, keep their values, whatever the new text has
 * after := ; everything else has its first value. AN OUTPUT THAT THE NEW PROGRAM NEVER WRITES STAYS AS THE OLD ONE LEFT IT: a valve that is
 * open stays open. The old program stays if the text is refused. This text is not copied either; the old one is no longer needed once
 * this call was done. */
/*@ requires narbeddo_is_scale(scale) && narbeddo_is_text(text, length) && \separated(scale, text + (0 .. length - 1));
    assigns *scale, \result \from *scale, text[0 .. length - 1];
    ensures lies_at: narbeddo_is_scale(scale);
    ensures RefusesChange: \result.status <= NARBEDDO_CLOSED || \result.status == NARBEDDO_NO_PROGRAM;
    ensures RefusesChange: \result.status != NARBEDDO_REFUSED ==> \result.number == 0 && \result.place == 0; */
narbeddo_refusal narbeddo_change(narbeddo_scale *scale, const uint8_t *text, size_t length);

/* Takes a sample: -8388608 to 8388607 counts. */
/*@ requires narbeddo_is_scale(scale);
    assigns *scale, \result \from *scale, counts;
    ensures lies_at: narbeddo_is_scale(scale);
    ensures TakesSample: -8388608 <= counts <= 8388607 ==> \result == NARBEDDO_DONE || \result == NARBEDDO_CLOSED;
    ensures RefusesSample: !(-8388608 <= counts <= 8388607) ==> \result == NARBEDDO_COUNTS_OUT_OF_RANGE || \result == NARBEDDO_CLOSED; */
uint32_t narbeddo_sample(narbeddo_scale *scale, int32_t counts);

/* Takes a byte of the line, and returns the answer to the request that it completes. Send it before you give the next byte, or keep it. */
/*@ requires narbeddo_is_scale(scale);
    assigns *scale, \result \from *scale, byte;
    ensures lies_at: narbeddo_is_scale(scale);
    ensures RefusesByte: \result.status == NARBEDDO_DONE || \result.status == NARBEDDO_CLOSED && \result.length == 0;
    ensures IsAnswered: \result.length == 0 || \result.length == 3 || \result.length == 20;
    ensures IsAnswered: \result.length != 0 ==> \result.bytes[0] == 10 && \result.bytes[\result.length - 1] == 13; */
narbeddo_answer narbeddo_byte(narbeddo_scale *scale, uint8_t byte);

/* Takes the digital inputs: bit i is %IX0.i. */
/*@ requires narbeddo_is_scale(scale);
    assigns *scale \from *scale, inputs;
    assigns \result \from *scale;
    ensures lies_at: narbeddo_is_scale(scale);
    ensures RefusesInputs: \result == NARBEDDO_DONE || \result == NARBEDDO_CLOSED; */
uint32_t narbeddo_inputs(narbeddo_scale *scale, uint16_t inputs);

/* Scans the program once, at a time in milliseconds that is not before the last scan's. The outputs of a scan that was not done are 0 here:
 * keep those of the scan before, or go to your safe state. */
/*@ requires narbeddo_is_scale(scale);
    assigns *scale, \result \from *scale, moment;
    ensures lies_at: narbeddo_is_scale(scale);
    ensures RefusesScan: \result.status == NARBEDDO_DONE || \result.status == NARBEDDO_CLOSED || \result.status == NARBEDDO_NO_PROGRAM
        || \result.status == NARBEDDO_MOMENT_OUT_OF_RANGE || \result.status == NARBEDDO_MOMENT_BACK;
    ensures RefusesScan: moment > 1099511627775 ==> \result.status != NARBEDDO_DONE && \result.status != NARBEDDO_MOMENT_BACK;
    ensures RefusesScan: moment <= 1099511627775 ==> \result.status != NARBEDDO_MOMENT_OUT_OF_RANGE;
    ensures IsScanned: \result.steps <= 1000000 && \result.bits <= 65535;
    ensures RefusesScan: \result.status != NARBEDDO_DONE ==> \result.steps == 0 && \result.bits == 0
        && (\forall integer i; 0 <= i < 4 ==> \result.words[i] == 0); */
narbeddo_scanned narbeddo_scan(narbeddo_scale *scale, uint64_t moment);

/* The reading of the indicator. */
/*@ requires narbeddo_is_readable(scale);
    assigns \result \from *scale;
    ensures ShowsNothing: \result.status == NARBEDDO_DONE || \result.status == NARBEDDO_CLOSED && \result.flags == 0;
    ensures ReportsReading: \result.flags <= 63;
    ensures ReportsReading: (\result.flags & NARBEDDO_VALID) == 0 ==> (\forall integer i; 0 <= i < 3 ==> \result.weights[i] == 0); */
narbeddo_reading narbeddo_read(const narbeddo_scale *scale);

/* What is engraved on the scale. */
/*@ requires narbeddo_is_readable(scale);
    assigns \result \from *scale;
    ensures ReportsEngraved: \result.status == NARBEDDO_DONE && 1 <= \result.e <= 50 && 500 * \result.e <= \result.max <= 10000 * \result.e
        || \result.status == NARBEDDO_CLOSED && \result.e == 0 && \result.max == 0;
    ensures ReportsEngraved: 0 <= \result.decimals <= 3; */
narbeddo_engraved narbeddo_plate(const narbeddo_scale *scale);

/* The digest of the plate's seven values, for a display next to what `narbeddo_identify` returns: that names the software, this the parameters.
 * It is what `sha256sum` gives of a file with the lines `unit = "kg"`, `decimals = 3`, `max = 15000`, `e = 5`, `zero_counts = 10000`,
 * `span_counts = 600000`, `window = 4`, each ended by a line feed, with the values of this plate. */
/*@ requires narbeddo_is_readable(scale);
    assigns \result \from *scale;
    ensures ReportsDigest: \result.status == NARBEDDO_DONE || \result.status == NARBEDDO_CLOSED && (\forall integer i; 0 <= i < 32 ==> \result.bytes[i] == 0); */
narbeddo_digest narbeddo_plate_digest(const narbeddo_scale *scale);

/* The value of a variable of the program. */
typedef struct narbeddo_variable {
    uint32_t status;
    uint32_t kind;  /* NARBEDDO_BOOL, NARBEDDO_DINT or NARBEDDO_TIME; 0 if the status is not NARBEDDO_DONE */
    int64_t number; /* 0 or 1 of a BOOL, a DINT, the milliseconds of a TIME; 0 if the status is not NARBEDDO_DONE */
} narbeddo_variable;

#define NARBEDDO_BOOL 1
#define NARBEDDO_DINT 2
#define NARBEDDO_TIME 3

/* The value that a variable of the program has after the last scan, for an online view: a name like "fill", "dose.timer.ET" through instances
 * of blocks, or "%QX0.3", in upper or lower case. The internal state of a standard block has no name. Nothing changes. */
/*@ requires narbeddo_is_readable(scale) && narbeddo_is_text(name, length) && \separated(scale, name + (0 .. length - 1));
    assigns \result \from *scale, name[0 .. length - 1];
    ensures RefusesValue: \result.status == NARBEDDO_DONE || \result.status == NARBEDDO_NO_MEMORY || \result.status == NARBEDDO_CLOSED
        || \result.status == NARBEDDO_NO_PROGRAM || \result.status == NARBEDDO_NO_VARIABLE;
    ensures RefusesValue: \result.status != NARBEDDO_DONE ==> \result.kind == 0 && \result.number == 0;
    ensures ReportsValue: \result.status == NARBEDDO_DONE ==> NARBEDDO_BOOL <= \result.kind <= NARBEDDO_TIME; */
narbeddo_variable narbeddo_value(const narbeddo_scale *scale, const uint8_t *name, size_t length);

/* What brings a new scale of the same plate to the state of this one, except for its program. Give that scale, in this order, and drop its answers:
 *
 *     if has_zero is 1, `window` samples of `zero` and the bytes 10, 'Z', 13;
 *     if has_tare is 1, `window` samples of `tare` and the bytes 10, 'T', 13;
 *     the `count` samples; the inputs; and the `length` bytes of the request.
 *
 * From then on each answer and each reading of that scale, and all that a scan sees, is what it would have been here. Nothing of the program
 * is in it: one that is loaded there starts over, so its scans may have other outputs. In a log these are at most 52 rows (docs/LOG.md, 4,
 * "A log that is cut"; examples/embedded/record.c). */
typedef struct narbeddo_state {
    uint32_t status;
    uint32_t window;     /* how many samples the plate's window holds, 2 to 16 */
    uint32_t has_zero;   /* 1 if the zero point is not the calibrated zero */
    int32_t zero;        /* the sample at which it was set */
    uint32_t has_tare;   /* 1 while a tare is active */
    int32_t tare;        /* the sample at which it was taken */
    uint32_t count;      /* how many of the last samples: fewer than the window holds only if no more came */
    int32_t samples[16]; /* the oldest first */
    uint32_t inputs;     /* bit i is %IX0.i */
    uint32_t length;     /* how many bytes of the open request, 0 if none is open */
    uint8_t request[3];  /* 10 and its text; "??" for any text of two bytes or more */
} narbeddo_state;

/* The state of the scale, as above. */
/*@ requires narbeddo_is_readable(scale);
    assigns \result \from *scale;
    ensures HoldsNothing: \result.status == NARBEDDO_DONE
        || \result.status == NARBEDDO_CLOSED && \result.window == 0 && \result.count == 0 && \result.length == 0;
    ensures ReportsPrelude: \result.window <= 16 && \result.count <= \result.window && \result.length <= 3;
    ensures ReportsPrelude: \result.length != 0 ==> \result.request[0] == 10; */
narbeddo_state narbeddo_prelude(const narbeddo_scale *scale);

/* Your program defines these three functions over its allocator (examples/embedded/memory.c has them over malloc). The library calls them in
 * the calls that the list at the top of this file names and in narbeddo_close. A block is aligned to `align`, which is 16 at most; when one
 * grows, its first `kept` bytes stay. If there is no memory to grow, the block stays as it was. A request of no bytes gets a block too.
 * Blocks are freed in any order. */
typedef struct narbeddo_block {
    bool ok;  /* whether there was memory */
    void *at; /* where; never null, even if there was none */
} narbeddo_block;

narbeddo_block rattle_alloc(size_t size, size_t align);
narbeddo_block rattle_realloc(void *at, size_t kept, size_t size, size_t align);
void rattle_dealloc(void *at);

/* One unit of a program's text, which need not be loaded: units are counted in text order from 0, and the program is the last. */
typedef struct narbeddo_unit {
    narbeddo_refusal text; /* NARBEDDO_NO_UNIT if the text has no unit of this number */
    uint32_t units;        /* how many units the text has */
    uint32_t bound;        /* how many steps the unit takes at most */
    uint32_t length;       /* the number of bytes of its name below: all, or the first 32 */
    uint8_t name[32];
} narbeddo_unit;

/*@ requires narbeddo_is_text(text, length);
    assigns \result \from text[0 .. length - 1], unit;
    ensures IsUnitStatus: \result.text.status <= NARBEDDO_NO_MEMORY || \result.text.status == NARBEDDO_NO_UNIT;
    ensures ReportsUnit: \result.text.status == NARBEDDO_DONE ==>
        unit < \result.units <= 64 && \result.bound <= 1000000 && \result.length <= 32; */
narbeddo_unit narbeddo_about(const uint8_t *text, size_t length, uint32_t unit);

/* The lines of a unit's worst path, written to a buffer. NARBEDDO_NO_ROOM if they do not fit, with their number; 1024 are always enough. */
typedef struct narbeddo_lines {
    narbeddo_refusal text;
    uint32_t length;
} narbeddo_lines;

/*@ requires narbeddo_is_text(text, length);
    requires buffer != \null && \valid(buffer + (0 .. buffer_length - 1)) && \offset(buffer) % 4 == 0;
    requires \separated(buffer + (0 .. buffer_length - 1), text + (0 .. length - 1));
    assigns buffer[0 .. buffer_length - 1], \result \from text[0 .. length - 1], unit, buffer_length;
    ensures IsPathStatus: \result.text.status <= NARBEDDO_NO_MEMORY || \result.text.status == NARBEDDO_NO_UNIT || \result.text.status == NARBEDDO_NO_ROOM;
    ensures ReportsPath: \result.text.status == NARBEDDO_DONE ==> \result.length <= buffer_length && \result.length <= 1024;
    ensures ReportsTooSmall: \result.text.status == NARBEDDO_NO_ROOM ==> buffer_length < \result.length <= 1024; */
narbeddo_lines narbeddo_path(const uint8_t *text, size_t length, uint32_t unit, uint32_t *buffer, size_t buffer_length);

#ifdef __cplusplus
}
#endif

#endif
