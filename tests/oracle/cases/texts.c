/* Texts that change: in data, on the stack, brought by a read call, and of a function that gives one. */
#define OWN __attribute__((noinline, noclone))
static char name[24] = "first", line[8];
volatile int got;
static inline int sys(int n, int a, int b, int c)
{
    register int a0 __asm__("a0") = a;
    register int a1 __asm__("a1") = b;
    register int a2 __asm__("a2") = c;
    register int a7 __asm__("a7") = n;
    __asm__ volatile("ecall" : "+r"(a0) : "r"(a1), "r"(a2), "r"(a7) : "memory");
    return a0;
}
static OWN int weigh(const char *text)
{
    int n = 0;
    while (text[n])
        n++;
    return n;
}
static OWN void touch(const char *text)
{
    got++;
}
static OWN char *change(char *text, int at, int letter)
{
    text[at] = letter;
    return text;
}
int main(void)
{
    char own[8] = "own";
    touch(name);
    got += weigh(name);
    got += weigh(change(name, 0, 'F'));
    touch(change(name, 3, 0));
    touch(change(own, 1, '-'));
    touch(line);
    sys(63, 0, (int)line, 4);
    touch(line);
    got += weigh(line);
    touch(line);
    change(line, 2, 7);
    touch(line);
    touch("fixed");
    touch((char *)&got);
    return 0;
}
