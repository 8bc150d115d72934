/* Runs the Scheme program that is its input. */
#include <stdio.h>

#include "scheme-private.h"
#include "system.h"

static char script[65536];

int main(void)
{
    read_input(script, sizeof script);
    scheme *state = scheme_init_new();
    if (!state) {
        fprintf(stderr, "tinyscheme: out of memory\n");
        return 1;
    }
    scheme_set_output_port_file(state, stdout);
    scheme_load_string(state, script);
    return state->retcode;
}
