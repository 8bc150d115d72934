/* A console writes messages with a level and a source, and keeps how many of each there were. */
#include <stdarg.h>
#include <stdio.h>
#include <string.h>

#include "draw.h"

#define EVENTS 70

enum level { NOTE, WARNING, FAILURE, LEVELS };

struct source {
    const char *name;
    unsigned messages[LEVELS];
    unsigned longest;
};

static struct source sources[] = {{"disk", {0}, 0}, {"net", {0}, 0}, {"user", {0}, 0}, {"clock", {0}, 0}};
#define SOURCES (sizeof sources / sizeof *sources)

static struct {
    unsigned lines;
    char line[56];
    struct source *last;
    unsigned repeated;
} console;

static const char *name_of(enum level level)
{
    static const char *const names[] = {"note", "warning", "failure"};
    return names[level];
}

static void count(struct source *source, enum level level, unsigned length)
{
    source->messages[level]++;
    if (length > source->longest)
        source->longest = length;
    if (console.last == source)
        console.repeated++;
    console.last = source;
    console.lines++;
}

static void say(struct source *source, enum level level, const char *format, ...)
{
    va_list rest;
    int length = sprintf(console.line, "%s %s: ", source->name, name_of(level));

    va_start(rest, format);
    length += vsprintf(console.line + length, format, rest);
    va_end(rest);
    puts(console.line);
    count(source, level, length);
}

static void tell_of_disk(void)
{
    unsigned sector = draw(90000);
    if (sector < 60000)
        say(&sources[0], NOTE, "read sector %u", sector);
    else if (sector < 85000)
        say(&sources[0], WARNING, "sector %u read after %u attempts", sector, 2 + sector % 5);
    else
        say(&sources[0], FAILURE, "sector %u could not be read after %u attempts", sector, 1000 + draw(9000));
}

static void tell_of_net(void)
{
    static const char *const hosts[] = {"mill", "bridge.example", "a", "harbour"};
    const char *host = hosts[draw(4)];
    if (draw(4))
        say(&sources[1], NOTE, "%u bytes from %s", draw(5000), host);
    else
        say(&sources[1], WARNING, "%s doesn't answer", host);
}

static void tell_of_user(void)
{
    if (draw(3))
        say(&sources[2], NOTE, "%s came", draw(2) ? "anna" : "bert");
    else
        say(&sources[2], FAILURE, "wrong word, %u left", draw(3));
}

static void print_last(void)
{
    printf("-- last from %s, %u lines, %u repeated\n", console.last->name, console.lines, console.repeated);
}

static unsigned sum_of(const struct source *source)
{
    unsigned sum = 0;
    for (unsigned level = 0; level < LEVELS; level++)
        sum += source->messages[level];
    return sum;
}

int main(void)
{
    for (unsigned i = 0; i < EVENTS; i++) {
        unsigned what = draw(3);
        if (what == 0)
            tell_of_disk();
        else if (what == 1)
            tell_of_net();
        else
            tell_of_user();
        if (i % 10 == 9)
            print_last();
    }
    for (unsigned i = 0; i < SOURCES; i++)
        printf("%s: %u messages, longest %u\n", sources[i].name, sum_of(&sources[i]), sources[i].longest);
    return 0;
}
