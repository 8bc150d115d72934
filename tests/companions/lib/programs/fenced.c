/* One hart hands a number over by a store with release meaning; the other loads it with acquire meaning, and takes it for
   an address. */
#include "machine.h"

static unsigned box;

void other_harts(int hart, int harts)
{
    (void)hart, (void)harts;
    __atomic_store_n(&box, 7, __ATOMIC_RELEASE);
    end_hart(0);
}

int main(int hart, int harts)
{
    unsigned given;

    (void)hart, (void)harts;
    while (!(given = __atomic_load_n(&box, __ATOMIC_ACQUIRE)))
        ;
    return *(volatile char *)given;
}
