/* Two harts count with load-reserved and store-conditional, and look at no answer: counts are lost. */
#include "machine.h"
static volatile unsigned count;
static void add(void)
{
    unsigned old, failed;
    __asm__ volatile("lr.w %0, (%2)\n addi %0, %0, 1\n sc.w %1, %0, (%2)"
        : "=&r"(old), "=&r"(failed) : "r"(&count) : "memory");
}
static unsigned shared[4], done;
static void count_up(int hart)
{
    for (int i = 0; i < 300; i++) {
        add();
        shared[hart & 3] += i;
    }
    __atomic_fetch_add(&done, 1, __ATOMIC_SEQ_CST);
}
void other_harts(int hart, int harts)
{
    (void)harts;
    count_up(hart);
    end_hart(0);
}
int main(int hart, int harts)
{
    (void)harts;
    count_up(hart);
    while (__atomic_load_n(&done, __ATOMIC_SEQ_CST) < 2)
        ;
    if (count != 600)
        *(volatile unsigned *)(count * 4 + 1) = 0;
    return 0;
}
