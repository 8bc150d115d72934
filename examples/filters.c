/* Four harts filter samples with the current filter, and hart 0 installs a new one now and then. A filter counts
   who uses it, and the last user gives it back to the pool. The bug: `hold` loads the pointer first and counts
   itself after that. In between the others may give the filter back, and the pool clears it. */
#include "machine.h"

#define FILTERS 4
#define TAPS 8
#define INSTALLED 6
#define BLOCKS 20

struct filter {
    unsigned users;
    unsigned number;
    const unsigned *taps;
    struct filter *next_free;
};

static const unsigned tables[FILTERS][TAPS] = {
    {1, 2, 4, 8, 8, 4, 2, 1},
    {3, 3, 3, 3, 3, 3, 3, 3},
    {8, 7, 6, 5, 4, 3, 2, 1},
    {1, 0, 2, 0, 4, 0, 8, 0},
};
static struct filter pool[FILTERS + 4];     /* more than four harts can hold at once */
static struct filter *free_filters;
static struct filter *current;
static unsigned pool_lock;
static unsigned ready;

static void lock(unsigned *word)
{
    while (__atomic_exchange_n(word, 1, __ATOMIC_ACQUIRE))
        ;
}

static void unlock(unsigned *word)
{
    __atomic_exchange_n(word, 0, __ATOMIC_RELEASE);
}

static struct filter *take_filter(unsigned number)
{
    struct filter *filter;

    lock(&pool_lock);
    filter = free_filters;
    free_filters = filter->next_free;
    unlock(&pool_lock);
    filter->number = number;
    filter->taps = tables[number % FILTERS];
    filter->users = 1;
    return filter;
}

static void give_filter(struct filter *filter)
{
    lock(&pool_lock);
    filter->taps = 0;
    filter->next_free = free_filters;
    free_filters = filter;
    unlock(&pool_lock);
}

static struct filter *hold(void)
{
    struct filter *filter = __atomic_load_n(&current, __ATOMIC_ACQUIRE);

    __atomic_fetch_add(&filter->users, 1, __ATOMIC_ACQ_REL);   /* the bug: too late */
    return filter;
}

static void drop(struct filter *filter)
{
    if (__atomic_fetch_sub(&filter->users, 1, __ATOMIC_ACQ_REL) == 1)
        give_filter(filter);
}

static void install(unsigned number)
{
    struct filter *next = take_filter(number);
    struct filter *old = current;

    __atomic_store_n(&current, next, __ATOMIC_RELEASE);
    if (old)
        drop(old);
}

static unsigned apply(const struct filter *filter, unsigned sample)
{
    unsigned sum = 0;

    for (int tap = 0; tap < TAPS; tap++) {
        sum += filter->taps[tap] * sample;
        sample = sample * 5 + 1;
    }
    return sum;
}

static unsigned samples(unsigned hart)
{
    unsigned sum = hart;

    for (unsigned block = 0; block < BLOCKS; block++) {
        struct filter *filter = hold();
        sum += apply(filter, block + hart);
        drop(filter);
    }
    return sum;
}

int other_harts(int hart, int harts)
{
    (void)harts;
    while (!__atomic_load_n(&ready, __ATOMIC_ACQUIRE))
        ;
    return samples(hart) & 1;
}

int main(int hart, int harts)
{
    unsigned sum = 0;

    (void)hart, (void)harts;
    for (unsigned i = 0; i < sizeof pool / sizeof *pool; i++) {
        pool[i].next_free = free_filters;
        free_filters = &pool[i];
    }
    install(0);
    __atomic_store_n(&ready, 1, __ATOMIC_RELEASE);
    for (unsigned number = 1; number < INSTALLED; number++) {
        for (unsigned line = 0; line < 120; line++)
            sum = sum * 31 + line;
        install(number);
    }
    return sum & 1;
}
