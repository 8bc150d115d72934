/* Two harts add up under a lock; the first one looks at the sum without it once the other is done: nothing is wrong there. */
#include "machine.h"
static int lock, sum, done;
static void add(int times)
{
    for (int i = 0; i < times; i++) {
        while (__atomic_exchange_n(&lock, 1, __ATOMIC_ACQUIRE))
            ;
        sum += 3;
        __atomic_store_n(&lock, 0, __ATOMIC_RELEASE);
    }
}
void other_harts(int hart, int harts)
{
    (void)hart, (void)harts;
    add(20);
    __atomic_store_n(&done, 1, __ATOMIC_RELEASE);
    end_hart(0);
}
int main(int hart)
{
    (void)hart;
    add(20);
    while (!__atomic_load_n(&done, __ATOMIC_ACQUIRE))
        ;
    return *(volatile int *)(sum * 4 + 0x7fffe001);
}
