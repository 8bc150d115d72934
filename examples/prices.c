/* Hart 0 publishes price lists, and the other harts price orders by the newest. The bug: `newest` loads the list before it
   looks whether one is there. If it loads that there is none, and then doesn't run until a list was announced, made and
   released, it returns none, and its caller loads from it. */
#include "machine.h"

#define LISTS 6
#define PRICES 64
#define ORDERS 6

struct list {
    unsigned day;
    unsigned prices[PRICES];
};

static struct list lists[LISTS];
static struct list *announced;      /* from then on it is made */
static unsigned released;           /* how many lists are done */

__attribute__((noinline)) static void make(struct list *list, unsigned day)
{
    list->day = day;
    for (unsigned item = 0; item < PRICES; item++)
        list->prices[item] = 100 + (day * 7 + item * 13) % 50;
}

static void publish(unsigned day)
{
    __atomic_store_n(&announced, &lists[day], __ATOMIC_RELEASE);
    make(&lists[day], day);
    __atomic_store_n(&released, day + 1, __ATOMIC_RELEASE);
}

static void withdraw(void)
{
    __atomic_store_n(&announced, 0, __ATOMIC_RELEASE);
}

/* The list of a day, once it is released. */
static const struct list *newest(unsigned day)
{
    const struct list *list;

    do
        list = __atomic_load_n(&announced, __ATOMIC_ACQUIRE);       /* the bug: before the test */
    while (__atomic_load_n(&released, __ATOMIC_ACQUIRE) <= day);
    return list;
}

static unsigned taken;              /* by how many harts, all days together */

static unsigned price_orders(unsigned hart, unsigned day)
{
    const struct list *list = newest(day);
    unsigned sum = 0;

    for (unsigned order = 0; order < ORDERS; order++)
        sum += list->prices[(hart * 17 + order * 5) % PRICES];
    __atomic_fetch_add(&taken, 1, __ATOMIC_ACQ_REL);
    return sum;
}

int other_harts(int hart, int harts)
{
    unsigned sum = 0;

    (void)harts;
    for (unsigned day = 0; day < LISTS; day++)
        sum += price_orders(hart, day);
    return sum & 1;
}

int main(int hart, int harts)
{
    (void)hart;
    for (unsigned day = 0; day < LISTS; day++) {
        publish(day);
        while (__atomic_load_n(&taken, __ATOMIC_ACQUIRE) < (day + 1) * (harts - 1))
            ;
        withdraw();
    }
    return 0;
}
