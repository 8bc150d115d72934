/* Harts read one input by turns, to the middle of words too; some bytes are stored over, and one of the words is an address. */
#define OWN __attribute__((noinline, noclone))
char text[8][32];
volatile int sums[8];
static int sys(int n, int a, int b, int c)
{
    register int a0 __asm__("a0") = a;
    register int a1 __asm__("a1") = b;
    register int a2 __asm__("a2") = c;
    register int a7 __asm__("a7") = n;
    __asm__ volatile("ecall" : "+r"(a0) : "r"(a1), "r"(a2), "r"(a7) : "memory");
    return a0;
}
OWN int sum(const volatile char *text)
{
    int sum = text[0];
    for (int i = 0; i < 32; i += 4)
        sum += *(const volatile int *)(text + i);
    return sum;
}
OWN void piece(char *text, int i)
{
    char *at = text + i % 9;
    *(volatile char *)text = 0;
    sys(63, 0, (int)at + 1, 3 + i % 4);
    if (i % 3 == 2)
        *(volatile char *)(at + 2) = '#';
}
OWN int follow(const volatile char *text)
{
    return **(const volatile int *const volatile *)(text + 4);
}
int main(int h, int harts)
{
    for (int i = 0; i < 40; i++) {
        piece(text[h], i + h);
        sums[h] += sum(text[h]);
    }
    return h ? 0 : follow(text[h]);
}
