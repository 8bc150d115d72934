/* Two tills sell what is on one shelf. Each looks which thing is the last one, writes its receipt, and
   takes it: the bug, since the other till may have taken it in between. Then a till follows a pointer
   that is gone. The tills wait for each other first, so that both sell. */
#include "machine.h"

#define THINGS 200

struct thing {
    unsigned price;
};

static struct thing things[THINGS];
static struct thing *volatile shelf[THINGS];
static volatile unsigned left;
static unsigned ready;

/* A receipt is some thousands of instructions in registers. */
static unsigned receipt(unsigned number)
{
    unsigned sum = number;

    for (unsigned line = 0; line < 1000; line++)
        sum = sum * 31 + line;
    return sum;
}

static unsigned sell(void)
{
    unsigned sold = 0;

    for (;;) {
        unsigned last = left;
        if (last == 0)
            return sold;
        last--;
        sold += receipt(last) & 1;
        struct thing *thing = shelf[last]; /* the bug: what was looked up before may be old */
        shelf[last] = 0;
        left = last;
        sold += thing->price;
    }
}

static void wait_for_both(void)
{
    __atomic_fetch_add(&ready, 1, __ATOMIC_ACQ_REL);
    while (__atomic_load_n(&ready, __ATOMIC_ACQUIRE) < 2)
        ;
}

int other_harts(int hart, int harts)
{
    (void)harts;
    if (hart != 1)
        return 0;
    wait_for_both();
    return sell() & 1;
}

int main(int hart, int harts)
{
    (void)hart;
    for (unsigned i = 0; i < THINGS; i++) {
        things[i].price = i + 1;
        shelf[i] = &things[i];
    }
    left = THINGS;
    if (harts > 1)
        wait_for_both();
    return sell() & 1;
}
