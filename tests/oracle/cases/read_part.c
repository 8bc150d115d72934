/* A read call fills a part of a word. Rows had stored the other bytes, and one is stored behind it: each of them is known, and
   what lay where the call read is over. */
char text[12];
static int sys(int n, int a, int b, int c)
{
    register int a0 __asm__("a0") = a;
    register int a1 __asm__("a1") = b;
    register int a2 __asm__("a2") = c;
    register int a7 __asm__("a7") = n;
    __asm__ volatile("ecall" : "+r"(a0) : "r"(a1), "r"(a2), "r"(a7) : "memory");
    return a0;
}
static __attribute__((noinline)) void line(volatile char *at, int size)
{
    sys(63, 0, (int)at, size);
    at[size] = 0;
}
int main(void)
{
    volatile char *at = text;
    at[0] = 0;
    at[4] = 8;
    sys(63, 0, (int)at + 1, 3);
    sys(63, 0, (int)at + 5, 3);
    line(at + 8, 2);
    line(at + 8, 3);
    return *(volatile int *)((at[0] + at[4]) | at[9] << 24 | at[10] << 16);
}
