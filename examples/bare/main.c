/* Two harts add to one number, each by atomic additions. `zelkuma run program.elf -- --harts 2` runs it. */
#include "machine.h"

#define ROUNDS 1000

static unsigned sum, ended;

static void add(void)
{
    for (int round = 0; round < ROUNDS; round++)
        __atomic_fetch_add(&sum, 1, __ATOMIC_RELAXED);
    __atomic_fetch_add(&ended, 1, __ATOMIC_RELEASE);
}

int main(int hart, int harts)
{
    char text[16], *end;

    (void)hart;
    add();
    while (__atomic_load_n(&ended, __ATOMIC_ACQUIRE) < (unsigned)harts)
        ;
    end = put_number(text, sum);
    *end++ = '\n';
    write_all(STREAM_OUT, text, end - text);
    return sum != ROUNDS * (unsigned)harts;
}

int other_harts(void)
{
    add();
    return 0;
}
