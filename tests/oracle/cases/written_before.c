/* A text is stored, and written long after: few of the last rows don't tell it. */
static int sys(int n, int a, int b, int c)
{
    register int a0 __asm__("a0") = a;
    register int a1 __asm__("a1") = b;
    register int a2 __asm__("a2") = c;
    register int a7 __asm__("a7") = n;
    __asm__ volatile("ecall" : "+r"(a0) : "r"(a1), "r"(a2), "r"(a7) : "memory");
    return a0;
}
char text[12] = "as the file";
int main(void)
{
    text[1] = 'x';
    for (volatile int i = 0; i < 300; i++)
        ;
    return sys(64, 1, (int)text, 12);
}
