/* A picture that hart 0 draws anew and hart 1 sums up. A number that is odd while it is being changed guards both fields. */
#include "machine.h"

#define SIZES 4
#define CHANGES 700

struct view {
    volatile unsigned version;
    const unsigned *volatile rows;
    volatile unsigned count;
};

static const unsigned small[] = {5, 9, 12, 7};
static unsigned pixels[SIZES][64];
static const unsigned *const parts[2] = {small, 0};
static struct view view;
static volatile unsigned finished;
static unsigned drawn = 362436069u, kept[2];

static unsigned draw_one(unsigned below)
{
    drawn ^= drawn << 13;
    drawn ^= drawn >> 17;
    drawn ^= drawn << 5;
    return drawn % below;
}

static void fence(void)
{
    __sync_synchronize();
}

static void set_up(void)
{
    for (unsigned size = 0; size < SIZES; size++)
        for (unsigned i = 0; i < 64; i++)
            pixels[size][i] = i * size;
    view.rows = small;
    view.count = 4;
    fence();
    view.version = 2;
}

static void show_pixels(unsigned size)
{
    view.version++;
    fence();
    view.rows = pixels[size];
    view.count = 16 * (size + 1);
    fence();
    view.version++;
}

static void show_nothing(void)
{
    view.rows = parts[1];
    view.count = 0;
    fence();
    view.version += 2;
}

static void show_small(void)
{
    view.version++;
    fence();
    view.rows = parts[0];
    view.count = 4;
    fence();
    view.version++;
}

static unsigned work(unsigned amount)
{
    unsigned sum = 0;
    for (unsigned i = 0; i < amount; i++)
        sum += i * i % 5;
    return sum;
}

static void change(void)
{
    unsigned what = draw_one(8);
    if (what < 5)
        show_pixels(draw_one(SIZES));
    else if (what < 7)
        show_small();
    else
        show_nothing();
    kept[0] += work(draw_one(12));
}

static unsigned look(void)
{
    unsigned before, count, sum = 0;
    const unsigned *rows;
    do {
        before = view.version;
        fence();
        rows = view.rows;
        count = view.count;
        fence();
    } while (before % 2 || before != view.version);
    for (unsigned i = 0; i < count; i++)
        sum += rows[i];
    return sum;
}

int other_harts(int hart, int harts)
{
    (void)harts;
    while (hart == 1 && !view.version)
        ;
    while (hart == 1 && !finished)
        kept[1] += look();
    return kept[1] & 1;
}

int main(void)
{
    set_up();
    for (unsigned i = 0; i < CHANGES; i++)
        change();
    finished = 1;
    return kept[0] & 1;
}
