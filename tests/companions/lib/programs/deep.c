/* A recursion on a stack of its own, an array: as deep as ROUNDS say. Its innermost call faults by itself. */
#ifndef ROUNDS
#define ROUNDS 10
#endif
#include "machine.h"
unsigned beside[512];
static unsigned char own[2048] __attribute__((aligned(16)));
__attribute__((noinline, used)) int walk(int rounds)
{
    volatile int kept[8];
    kept[rounds & 7] = rounds;
    return rounds ? walk(rounds - 1) + kept[rounds & 7] : *(volatile int *)0x7fffe001;
}
int main(void)
{
    register int rounds __asm__("a0") = ROUNDS;
    __asm__ volatile("mv s1, sp\n mv sp, %1\n call walk\n mv sp, s1" : "+r"(rounds) : "r"(own + sizeof own)
        : "s1", "ra", "memory", "t0", "t1", "t2", "a1", "a2", "a3", "a4", "a5", "a6", "a7");
    return rounds + (int)beside[0];
}
