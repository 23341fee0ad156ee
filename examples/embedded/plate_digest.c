/* Prints the digest of a plate's values, as a device shows it next to what identifies its software:
 *
 *     plate_digest FILE
 *
 * `sha256sum` gives the same of a file with the plate's seven lines in the order in which narbeddo.h has them, and nothing else. A plate that is
 * refused has none: then the status is 1. */
#include "narbeddo.h"

#include <stdio.h>

static uint8_t text[4096];

int main(int count, char **words)
{
    static narbeddo_scale scale;
    narbeddo_digest digest;
    size_t length, at;
    FILE *file = count == 2 ? fopen(words[1], "rb") : NULL;
    if (file == NULL) {
        fputs("plate_digest FILE\n", stderr);
        return 2;
    }
    length = fread(text, 1, sizeof text, file);
    fclose(file);
    narbeddo_make(&scale);
    if (narbeddo_open(&scale, text, length).status != NARBEDDO_DONE) {
        fputs("the plate is refused\n", stderr);
        return 1;
    }
    digest = narbeddo_plate_digest(&scale);
    for (at = 0; at < sizeof digest.bytes; at++) {
        printf("%02x", (unsigned)digest.bytes[at]);
    }
    putchar('\n');
    narbeddo_close(&scale);
    return 0;
}
