/* Hart 0 hands orders to hart 1 over a box, with a bug: it says that the box is full before the order
   is in it. Most runs go well; in some hart 1 looks in between, and follows a pointer that isn't
   there yet. */
#include "machine.h"

#define ORDERS 2

struct order {
    volatile unsigned item;
    volatile unsigned count;
};

static struct order orders[ORDERS] = {{11, 2}, {12, 5}};
static struct order *volatile box;
static volatile unsigned is_full;
static volatile unsigned idle;

static void hand_over(struct order *order)
{
    while (is_full)
        ;
    is_full = 1; /* the bug: this comes before the order */
    box = order;
}

static unsigned take(void)
{
    unsigned count;

    while (!is_full)
        idle++;
    count = box->count;
    box = 0;
    is_full = 0;
    return count;
}

int other_harts(int hart, int harts)
{
    unsigned sold = 0;

    (void)harts;
    if (hart == 1)
        for (int i = 0; i < ORDERS; i++)
            sold += take();
    return sold;
}

int main(int hart, int harts)
{
    (void)hart;
    if (harts > 1)
        for (int i = 0; i < ORDERS; i++)
            hand_over(&orders[i]);
    return 0;
}
