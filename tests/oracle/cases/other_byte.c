/* The word's latest store is to another byte than the one that is loaded. */
volatile unsigned char both[4];
int count;
char text[4];
static int sys(int n, int a, int b, int c)
{
    register int a0 __asm__("a0") = a;
    register int a1 __asm__("a1") = b;
    register int a2 __asm__("a2") = c;
    register int a7 __asm__("a7") = n;
    __asm__ volatile("ecall" : "+r"(a0) : "r"(a1), "r"(a2), "r"(a7) : "memory");
    return a0;
}
int main(void)
{
    sys(63, 0, (int)text, 1);
    both[0] = text[0];
    both[1] = 7;
    if (both[0] == 'x') count++;
    return count;
}
