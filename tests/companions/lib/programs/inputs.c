/* Readers of eight kinds of input, each with one bug that some inputs bring out: -DREADER=NAME chooses one. */
#include "machine.h"

static char input[1 << 16];
static int size;

static int is_letter(char c) { return (c >= 'a' && c <= 'z') || (c >= 'A' && c <= 'Z') || (c >= '0' && c <= '9'); }
static void say(const char *text) { int n = 0; while (text[n]) n++; write_bytes(STREAM_OUT, text, n); }

/* KEY = VALUE: a key of over 24 letters overruns its place, and so the pointer behind it. */
static int settings(void)
{
    static struct { char key[24]; int *volatile count; } entry;
    static int counts[4];
    for (int at = 0; at < size;) {
        int n = 0;
        entry.count = &counts[at & 3];
        while (at < size && is_letter(input[at])) entry.key[n++] = input[at++];
        while (at < size && input[at] == ' ') at++;
        if (at < size && input[at] == '=') ++*entry.count;
        while (at < size && input[at] != '\n') at++;
        at++;
    }
    return 0;
}

/* Rows of cells: a cell in brackets is taken for the end of an empty table, and the table is refused. */
static int table(void)
{
    unsigned cells = 0;
    for (int at = 0; at < size; at++)
        if (at == 0 || input[at - 1] == ',' || input[at - 1] == '\n') {
            cells++;
            if (input[at] == '(') return 3;
        }
    return 0;
}

/* A kind, a length and so many bytes: kind 7 copies from so far back, which nothing compares with how much there is. */
static int packets(void)
{
    static unsigned char out[4096];
    unsigned made = 0;
    for (int at = 0; at + 1 < size;) {
        unsigned kind = input[at], length = (unsigned char)input[at + 1];
        at += 2;
        for (unsigned i = 0; i < length && at + (int)i < size && made < 4000; i++, made++)
            out[made] = kind == 7 ? out[made - (unsigned)(unsigned char)input[at] * 65536] : (unsigned char)input[at + i];
        at += length;
    }
    return 0;
}

/* Postfix: an operator that has no two operands takes what lies before the stack. */
static int postfix(void)
{
    static struct { int *volatile unset[2]; int *volatile stack[64]; int numbers[4096]; } state;
    int depth = 0, next = 0;
    for (int at = 0; at < size && next < 4000; at++) {
        char c = input[at];
        if (c >= '0' && c <= '9') {
            state.numbers[next] = c - '0';
            if (depth < 64) state.stack[depth++] = &state.numbers[next++];
        } else if (c == '+' || c == '*') {
            int *one = state.stack[--depth], *other = state.stack[--depth];
            state.numbers[next] = c == '+' ? *one + *other : *one * *other;
            state.stack[depth++] = &state.numbers[next++];
        } else if (c == '\n') {
            depth = next = 0;
        }
    }
    return 0;
}

/* [NAME] begins a section, [-NAME] removes the last one, whose place the next text gets; a key still goes to the removed one. */
static int sections(void)
{
    static union { struct { int *keys; } section; char text[8]; } places[256];
    static int keys, used;
    int now = -1, is_free = 0;
    for (int at = 0; at < size && used < 250; at++) {
        if (input[at] == '[' && at + 1 < size && input[at + 1] == '-') {
            is_free = now >= 0;
        } else if (input[at] == '[') {
            now = used++, is_free = 0;
            places[now].section.keys = &keys;
        } else if (input[at] == '"' && is_free) {
            for (int i = 0; i < 8 && at + 1 + i < size; i++) places[now].text[i] = input[at + 1 + i];
            is_free = 0;
        } else if (input[at] == '=' && now >= 0) {
            ++*places[now].section.keys;
        }
        while (at < size && input[at] != '\n') at++;
    }
    return 0;
}

/* Nested brackets: the 17th is kept behind the array of open ones, in the pointer that counts them. */
static int nested(void)
{
    static struct { unsigned open[16]; unsigned *volatile most; } state;
    static unsigned most;
    int depth = 0;
    state.most = &most;
    for (int at = 0; at < size; at++) {
        if (input[at] == '{' || input[at] == '[') state.open[depth++] = at * 4096 + 0x10005;
        else if ((input[at] == '}' || input[at] == ']') && depth > 0) depth--;
        if (depth > (int)*state.most) *state.most = depth;
        if (depth == 20) depth = 0;
    }
    return 0;
}

/* Names in a table of 16: the 17th looks for a free place for ever. */
static int names(void)
{
    static unsigned places[16];
    for (int at = 0; at < size; at++) {
        unsigned hash = 1;
        while (at < size && is_letter(input[at])) hash = hash * 31 + (unsigned char)input[at++];
        unsigned place = hash % 16;
        while (hash > 1 && places[place] && places[place] != hash) place = (place + 1) % 16;
        if (hash > 1) places[place] = hash;
    }
    return 0;
}

/* Amounts, + and -: the words are those of a debt if more than 9 bookings come in one line. */
static int bookings(void)
{
    int total = 0, line = 0;
    for (int at = 0; at < size; at++) {
        if (input[at] == '\n') line = 0;
        else if (input[at] == '+') total++, line++;
        if (line > 9) { total = -total; break; }
    }
    say(total < 0 ? "your debt is too high\n" : "fine\n");
    return 0;
}

int main(void)
{
    for (int got; size < (int)sizeof input - 1 && (got = read_bytes(input + size, sizeof input - 1 - size)) > 0;) size += got;
    return READER();
}
