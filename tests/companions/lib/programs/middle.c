/* A pointer that leads some instructions into a function. */
#include "machine.h"
unsigned cells[4];
__attribute__((noinline)) unsigned twice(unsigned at, unsigned value)
{
    cells[at & 3] += value;
    return *(volatile unsigned *)(cells[(at + 1) & 3] + 0x7fffe001);
}
unsigned (*volatile called)(unsigned, unsigned);
int main(void)
{
    called = (unsigned (*)(unsigned, unsigned))((char *)twice + 8);
    return called(1, 2);
}
