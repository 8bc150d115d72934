/* Two harts: one reads the settings by a pointer, the other retires them, and wipes them without asking who reads. */
#include "draw.h"
#include "heap.h"
#include "machine.h"

struct settings {
    unsigned number;
    const unsigned *scale;
};

static const unsigned scales[] = {3, 5, 7, 11};
static struct settings *volatile current;
static volatile unsigned started;
static struct settings pool[2];

static void install(unsigned number)
{
    struct settings *next = &pool[number % 2], *old = current;
    next->number = number;
    next->scale = &scales[number % 4];
    current = next;
    if (old)
        old->scale = 0;
}

static unsigned compute(unsigned value)
{
    struct settings *settings = current;
    unsigned sum = value;
    for (int i = 0; i < 30; i++)
        sum = sum * 33 ^ i;
    return sum * *settings->scale;
}

int other_harts(int hart, int harts)
{
    unsigned sum = 0;
    (void)harts;
    while (!started)
        ;
    for (int i = 0; i < 300; i++)
        sum += compute(i + hart);
    return sum & 1;
}

int main(void)
{
    unsigned sum = 0;

    install(0);
    started = 1;
    for (unsigned i = 1; i < 200; i++) {
        for (int k = 0; k < 40; k++)
            sum += draw(9);
        install(i);
    }
    return sum & 1;
}
