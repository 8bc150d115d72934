/* Compresses its input to stream 1, as one block of the smallest size. */
#include <stdio.h>
#include <stdlib.h>

#include "bzlib.h"
#include "system.h"

static char text[65536];
static char packed[sizeof text + sizeof text / 100 + 600]; /* enough for every text, by bzip2's manual */

/* The library calls this when its own state is wrong. */
void bz_internal_error(int code)
{
    fprintf(stderr, "bzip2: internal error %d\n", code);
    exit(3);
}

int main(void)
{
    unsigned length = read_input(text, sizeof text);
    unsigned packed_length = sizeof packed;
    int status = BZ2_bzBuffToBuffCompress(packed, &packed_length, text, length, 1, 0, 0);
    if (status != BZ_OK) {
        fprintf(stderr, "bzip2: error %d\n", status);
        return 1;
    }
    return fwrite(packed, 1, packed_length, stdout) == packed_length ? 0 : 1;
}
