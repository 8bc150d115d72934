/* Notices are texts with places in them: %s for a text, %u for a number, %c for a letter. A board keeps and prints them. */
#include <stdarg.h>

#include "draw.h"
#include "machine.h"

#define MOST 90
#define NOTICES 90

struct room {
    const char *name;
    unsigned seats;
    unsigned floor;
};

struct speaker {
    const char *name;
    char letter;
};

static const struct room rooms[] = {{"Red Hall", 120, 1}, {"Attic", 20, 4}, {"Garden", 60, 0}, {"Library", 35, 2}};
static const struct speaker speakers[] = {{"Anna", 'a'}, {"Bert", 'b'}, {"Clara", 'c'}, {"Dora", 'd'}, {"Emil", 'e'}};
static char board[MOST];
static unsigned printed, letters;

static char *put_letter(char *to, char letter)
{
    *to++ = letter;
    return to;
}

static char *put_place(char *to, char kind, va_list *rest)
{
    if (kind == 's')
        return put_text(to, va_arg(*rest, const char *));
    if (kind == 'u')
        return put_number(to, va_arg(*rest, unsigned));
    if (kind == 'c')
        return put_letter(to, va_arg(*rest, int));
    return put_letter(to, kind);
}

static void post(const char *format, ...)
{
    char *end = board;
    va_list rest;

    va_start(rest, format);
    while (*format) {
        if (*format == '%')
            end = put_place(end, *++format, &rest);
        else
            end = put_letter(end, *format);
        format++;
    }
    va_end(rest);
    *end++ = '\n';
    write_all(STREAM_OUT, board, end - board);
    letters += end - board;
    printed++;
}

static void announce(const struct speaker *speaker, const struct room *room, unsigned hour)
{
    post("%u:00 %s speaks in the %s (%c)", hour, speaker->name, room->name, speaker->letter);
}

static void move(const struct speaker *speaker, const struct room *from, const struct room *to)
{
    post("%s goes from floor %u to floor %u, %s", speaker->name, from->floor, to->floor, to->name);
}

static void tell_full(const struct room *room, unsigned people)
{
    post("the %s is full: %u of %u", room->name, people, room->seats);
}

static void tell_late(const struct speaker *speaker, unsigned minutes)
{
    post("%s is %u minutes late", speaker->name, minutes);
}

static void tell_place(const struct room *room, unsigned people)
{
    post("%u places left in the %s, floor %u", room->name, room->seats - people, room->floor);
}

static void visit(const struct room *room)
{
    unsigned people = draw(130);
    if (people >= room->seats)
        tell_full(room, room->seats);
    else if (people * 10 > room->seats * 7)
        tell_place(room, people);
}

static void go_on(unsigned number)
{
    const struct speaker *speaker = &speakers[draw(5)];
    const struct room *room = &rooms[draw(4)];
    unsigned what = draw(8);
    if (what < 3)
        announce(speaker, room, 9 + number % 9);
    else if (what < 4)
        move(speaker, &rooms[draw(4)], room);
    else if (what < 6)
        tell_late(speaker, 5 + draw(50));
    else
        visit(room);
}

int main(void)
{
    for (unsigned i = 0; i < NOTICES; i++)
        go_on(i);
    post("%u notices, %u letters, %%", printed, letters);
    return 0;
}
