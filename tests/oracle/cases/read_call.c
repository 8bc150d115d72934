/* A read call brought what is loaded, after a store to it. */
char text[16];
int count;
static int sys(int n, int a, int b, int c)
{
    register int a0 __asm__("a0") = a;
    register int a1 __asm__("a1") = b;
    register int a2 __asm__("a2") = c;
    register int a7 __asm__("a7") = n;
    __asm__ volatile("ecall" : "+r"(a0) : "r"(a1), "r"(a2), "r"(a7) : "memory");
    return a0;
}
int main(void)
{
    for (int i = 0; i < 16; i += 4) *(int *)(text + i) = 0;
    sys(63, 0, (int)text, 8);
    text[5] = 'z';
    if (text[2] == 'x') count++;
    return count;
}
