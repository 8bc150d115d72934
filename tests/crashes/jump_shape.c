/* Things on a desk: numbers, texts and buttons. What a thing holds depends on its kind, and things are changed by orders. */
#include "draw.h"
#include "machine.h"

#define THINGS 14
#define ORDERS 900

enum kind { NUMBER, TEXT, BUTTON };

struct thing {
    enum kind kind;
    union {
        int number;
        const char *text;
        unsigned (*press)(unsigned);
    } is;
    unsigned changes;
};

static struct thing things[THINGS];
static unsigned presses, shown;

static unsigned ring(unsigned times)
{
    return presses += times;
}

static unsigned open_door(unsigned times)
{
    presses++;
    return times * 3;
}

static void make_number(struct thing *thing, int number)
{
    thing->kind = NUMBER;
    thing->is.number = number;
}

static void make_text(struct thing *thing, const char *text)
{
    thing->kind = TEXT;
    thing->is.text = text;
}

static void make_button(struct thing *thing, unsigned (*press)(unsigned))
{
    thing->kind = BUTTON;
    thing->is.press = press;
}

static unsigned show(const struct thing *thing)
{
    switch (thing->kind) {
    case NUMBER:
        return thing->is.number;
    case TEXT:
        return thing->is.text[0];
    default:
        return 1;
    }
}

static unsigned click(struct thing *thing, unsigned times)
{
    if (thing->kind != BUTTON)
        return 0;
    return thing->is.press(times);
}

static void swap(struct thing *one, struct thing *other)
{
    enum kind kind = one->kind;
    one->kind = other->kind;
    other->kind = kind;
    if (one->kind != NUMBER || kind != NUMBER) {
        const char *text = one->is.text;
        one->is.text = other->is.text;
        other->is.text = text;
    }
    one->changes++;
    other->changes++;
}

static void copy_kind(struct thing *to, const struct thing *from)
{
    to->kind = from->kind;
    if (from->kind == TEXT)
        to->is.text = from->is.text;
    to->changes++;
}

static void renew(struct thing *thing, unsigned order)
{
    if (order % 3 == 0)
        make_number(thing, order);
    else if (order % 3 == 1)
        make_text(thing, order % 2 ? "blue" : "white");
    else
        make_button(thing, order % 2 ? ring : open_door);
}

static void obey(unsigned order)
{
    struct thing *thing = &things[draw(THINGS)], *other = &things[draw(THINGS)];
    if (order % 5 < 2)
        swap(thing, other);
    else if (order % 5 == 2 && (thing->kind != BUTTON || order > 60) && (other->kind != NUMBER && thing->kind != NUMBER))
        copy_kind(other, thing);
    else if (order % 5 == 3)
        renew(thing, order);
    shown += show(thing) + click(other, order % 3);
}

int main(void)
{
    for (unsigned i = 0; i < THINGS; i++)
        renew(&things[i], i);
    for (unsigned i = 0; i < ORDERS; i++)
        obey(i);
    return (shown + presses) & 1;
}
