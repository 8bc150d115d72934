/* Two harts move money between two accounts. Each takes the locks of both, with a bug: the account
   that gives comes first, so that the two take them in opposite orders. Most runs go well; in some
   each holds one lock, and waits for the other for ever. */
#include "machine.h"

#define DAYS 20

struct account {
    unsigned lock;
    unsigned money;
};

static struct account here = {0, 1000}, there = {0, 1000};
static volatile unsigned day[8];

static void take(unsigned *lock)
{
    while (__atomic_exchange_n(lock, 1, __ATOMIC_ACQUIRE))
        while (__atomic_load_n(lock, __ATOMIC_RELAXED))
            ;
}

static void give_back(unsigned *lock)
{
    __atomic_store_n(lock, 0, __ATOMIC_RELEASE);
}

static void move(struct account *from, struct account *to, unsigned money)
{
    take(&from->lock); /* the bug: both harts are to take the same lock first */
    take(&to->lock);
    from->money -= money;
    to->money += money;
    give_back(&to->lock);
    give_back(&from->lock);
}

/* Each hart moves money once, on a day of its own. */
static int days(int hart, int when, struct account *from, struct account *to)
{
    while (day[hart] < DAYS)
        if (++day[hart] == (unsigned)when)
            move(from, to, 100);
    return 0;
}

int other_harts(int hart, int harts)
{
    (void)harts;
    return hart == 1 ? days(hart, 12, &there, &here) : 0;
}

int main(int hart, int harts)
{
    (void)harts;
    return days(hart, 10, &here, &there);
}
