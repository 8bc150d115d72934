/* Two harts count themselves as readers while they look: the count is no lock, though it is mostly 0, 1 and 0 again. */
#include "machine.h"
int readers, value = 4096, seen[4];
__attribute__((noinline)) static void spin(int rounds)
{
    for (volatile int i = 0; i < rounds; i++)
        ;
}
__attribute__((noinline)) static int look(int hart)
{
    __atomic_fetch_add(&readers, 1, __ATOMIC_ACQUIRE);
    int got = value;
    seen[hart] += got;
    __atomic_fetch_sub(&readers, 1, __ATOMIC_RELEASE);
    return got;
}
static int look_often(int hart)
{
    int got = 0;
    for (int i = 0; i < 60; i++) {
        spin(7 + hart * 2 + i % 5);
        got = look(hart);
    }
    return got;
}
void other_harts(int hart, int harts)
{
    (void)harts;
    look_often(hart);
    spin(500);
    end_hart(0);
}
int main(int hart)
{
    return *(volatile int *)(look_often(hart) + 0x7fffe000);
}
