/* Three calls around a scale, as a maker's own code may have them, each with its contract in ACSL. `tools/try_c_side` proves by Frama-C that
 * they keep it: that the library's calls get what they require, that no index leaves its array, and that each loop ends. */
#include "narbeddo.h"

#define LONGEST_ANSWER 20

uint32_t take_counts(narbeddo_scale *scale, int32_t counts);
size_t take_bytes(narbeddo_scale *scale, const uint8_t *bytes, size_t count, uint8_t *out, size_t size, size_t *written);
uint32_t scan(narbeddo_scale *scale, uint64_t moment, uint32_t before);

/* A sample. Counts are clamped to the range of the converter, so that none is out of range. */
/*@ requires narbeddo_is_scale(scale);
    assigns *scale;
    ensures \result == NARBEDDO_DONE || \result == NARBEDDO_CLOSED; */
uint32_t take_counts(narbeddo_scale *scale, int32_t counts)
{
    if (counts < -8388608) {
        counts = -8388608;
    }
    if (counts > 8388607) {
        counts = 8388607;
    }
    return narbeddo_sample(scale, counts);
}

/* Takes bytes of the line for as long as there is space for one more answer, and puts their answers one after another. It returns how many
 * bytes were taken; pass the others again once the answers were sent. */
/*@ requires narbeddo_is_scale(scale) && \valid_read(bytes + (0 .. count - 1)) && \valid(out + (0 .. size - 1)) && \valid(written);
    requires \separated(scale, bytes + (0 .. count - 1), out + (0 .. size - 1), written);
    assigns *scale, out[0 .. size - 1], *written;
    ensures \result <= count && *written <= size;
    ensures \result < count ==> size - *written < LONGEST_ANSWER; */
size_t take_bytes(narbeddo_scale *scale, const uint8_t *bytes, size_t count, uint8_t *out, size_t size, size_t *written)
{
    size_t taken = 0, at = 0;
    /*@ loop invariant narbeddo_is_scale(scale);
        loop invariant taken <= count && at <= size;
        loop assigns taken, at, *scale, out[0 .. size - 1];
        loop variant count - taken; */
    while (taken < count && size - at >= LONGEST_ANSWER) {
        narbeddo_answer answer = narbeddo_byte(scale, bytes[taken]);
        uint32_t i;
        /*@ loop invariant i <= answer.length && answer.length <= LONGEST_ANSWER && at + answer.length <= size;
            loop assigns i, out[0 .. size - 1];
            loop variant answer.length - i; */
        for (i = 0; i < answer.length; i++) {
            out[at + i] = answer.bytes[i];
        }
        at += answer.length;
        taken++;
    }
    *written = at;
    return taken;
}

/* The outputs after a scan: those of the scan before if none was done. */
/*@ requires narbeddo_is_scale(scale) && before <= 65535;
    assigns *scale;
    ensures \result <= 65535;
    ensures moment > 1099511627775 ==> \result == before; */
uint32_t scan(narbeddo_scale *scale, uint64_t moment, uint32_t before)
{
    narbeddo_scanned scanned = narbeddo_scan(scale, moment);
    return scanned.status == NARBEDDO_DONE ? scanned.bits : before;
}
