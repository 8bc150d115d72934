/* A place that is looked for and isn't found: the variable keeps what another call left on the stack. */
#include "machine.h"
static volatile unsigned limit = 40;
__attribute__((noinline)) static unsigned fill(unsigned seed)
{
    volatile unsigned all[16];
    for (unsigned i = 0; i < 16; i++)
        all[i] = seed * 0x01010101 + i;
    return all[seed & 15];
}
__attribute__((noinline)) static void look(const unsigned *table, unsigned *place)
{
    for (unsigned i = 0; i < 8; i++)
        if (table[i] == limit)
            *place = i;
}
__attribute__((noinline)) static unsigned find(const unsigned *table)
{
    unsigned place;
    look(table, &place);
    return table[place];
}
static unsigned table[8] = {1, 2, 3, 4, 5, 6, 7, 8};
int main(int hart)
{
    (void)hart;
    fill(7);
    return find(table) + fill(3);
}
