/* Prints what identifies the library, as `wc --version` does of the program. A device shows it on its display. The library and the header
 * have to be of one release: else the status is 1. */
#include "narbeddo.h"

#include <stdio.h>
#include <string.h>

int main(void)
{
    narbeddo_identity identity = narbeddo_identify();
    printf("narbeddo %s (Narbeddo)\n", identity.version);
    printf("toolchain %s\n", identity.toolchain);
    printf("legal part sha256 %s\n", identity.legal_part);
    printf("data path sha256 %s\n", identity.data_path);
    return strcmp((const char *)identity.version, NARBEDDO_VERSION) == 0 ? 0 : 1;
}
