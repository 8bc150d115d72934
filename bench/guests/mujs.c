/* Runs the JavaScript program that is its input, with a function `print`. */
#include <stdio.h>

#include "mujs.h"
#include "system.h"

static char script[65536];

static void print(js_State *state)
{
    for (int i = 1; i < js_gettop(state); i++)
        printf(i > 1 ? " %s" : "%s", js_tostring(state, i));
    printf("\n");
    js_pushundefined(state);
}

static void report(js_State *state, const char *message)
{
    (void)state;
    fprintf(stderr, "mujs: %s\n", message);
}

int main(void)
{
    read_input(script, sizeof script);
    js_State *state = js_newstate(NULL, NULL, 0);
    if (!state) {
        fprintf(stderr, "mujs: out of memory\n");
        return 1;
    }
    js_setreport(state, report);
    js_newcfunction(state, print, "print", 1);
    js_setglobal(state, "print");
    return js_dostring(state, script);
}
