/* A bakery: hart 0 takes orders for bread and cakes, hart 1 bakes bread, and hart 2 cakes. An oven that is off
   is kicked on when an order comes; a baker whose list is empty turns it off and waits. */
#include "machine.h"

#define ORDERS 24
#define LIST 32

struct oven {
    unsigned lock;
    unsigned asked, baked;
    unsigned on;
    unsigned kicks;
    unsigned sizes[LIST];
};

static struct oven bread, cakes;
static unsigned closed;
static volatile unsigned table[6];
static unsigned crumbs;

static void lock(unsigned *word)
{
    while (__atomic_exchange_n(word, 1, __ATOMIC_ACQUIRE))
        ;
}

static void unlock(unsigned *word)
{
    __atomic_store_n(word, 0, __ATOMIC_RELEASE);
}

static void order(struct oven *oven, unsigned size)
{
    lock(&oven->lock);
    oven->sizes[oven->asked++ % LIST] = size;
    unlock(&oven->lock);
    if (!__atomic_exchange_n(&oven->on, 1, __ATOMIC_ACQ_REL))
        __atomic_fetch_add(&oven->kicks, 1, __ATOMIC_ACQ_REL);
}

static unsigned next_size(struct oven *oven)
{
    unsigned size = 0;

    lock(&oven->lock);
    if (oven->baked != oven->asked)
        size = oven->sizes[oven->baked++ % LIST];
    unlock(&oven->lock);
    return size;
}

static unsigned wait_for_kick(struct oven *oven, unsigned seen)
{
    while (__atomic_load_n(&oven->kicks, __ATOMIC_ACQUIRE) == seen)
        if (__atomic_load_n(&closed, __ATOMIC_ACQUIRE))
            break;
    return seen + 1;
}

static void knead(unsigned size)
{
    for (unsigned i = 0; i < 4; i++)
        table[i] = size + i;
}

static void bake_bread(void)
{
    unsigned kicks = 0, size;

    while (!__atomic_load_n(&closed, __ATOMIC_ACQUIRE)) {
        kicks = wait_for_kick(&bread, kicks);
        while ((size = next_size(&bread)) != 0)
            knead(size);
        __atomic_store_n(&bread.on, 0, __ATOMIC_RELEASE);
    }
}

static void bake_cakes(void)
{
    unsigned kicks = 0, size;

    while (!__atomic_load_n(&closed, __ATOMIC_ACQUIRE)) {
        kicks = wait_for_kick(&cakes, kicks);
        while ((size = next_size(&cakes)) != 0)
            crumbs += size * 3;
        __atomic_store_n(&cakes.on, 0, __ATOMIC_RELEASE);
    }
}

static void wait_for_last(struct oven *oven)
{
    while (__atomic_load_n(&oven->baked, __ATOMIC_ACQUIRE) != oven->asked)
        ;
}

int other_harts(int hart, int harts)
{
    (void)harts;
    if (hart == 1)
        bake_bread();
    if (hart == 2)
        bake_cakes();
    return 0;
}

int main(void)
{
    for (unsigned i = 0; i < ORDERS; i++) {
        for (unsigned j = 0; j < i % 5 * 4; j++)
            table[4] = j;
        order(i % 3 ? &bread : &cakes, 1 + i % 7);
    }
    wait_for_last(&bread);
    wait_for_last(&cakes);
    __atomic_store_n(&closed, 1, __ATOMIC_RELEASE);
    return 0;
}
