/* Every hart counts to ROUNDS on two shared counters: one with a plain load, add and store, so that
   harts overwrite each other's counts, and one that can't lose any: by an AMO in even rounds and by
   LR and SC in odd ones. Hart 0 waits for the others and prints both totals. */
#include "machine.h"

#define ROUNDS 1000

static volatile unsigned plain;
static unsigned guarded;
static unsigned finished;

static void count(void)
{
    for (unsigned round = 0; round < ROUNDS; round++) {
        plain = plain + 1;
        if (round % 2 == 0) {
            __atomic_fetch_add(&guarded, 1, __ATOMIC_RELAXED);
        } else {
            unsigned seen = __atomic_load_n(&guarded, __ATOMIC_RELAXED);
            while (!__atomic_compare_exchange_n(&guarded, &seen, seen + 1, 0, __ATOMIC_RELAXED,
                                                __ATOMIC_RELAXED))
                ;
        }
    }
    __atomic_fetch_add(&finished, 1, __ATOMIC_RELEASE);
}

int other_harts(int hart, int harts)
{
    (void)harts;
    count();
    return hart;
}

int main(int hart, int harts)
{
    char line[64], *end = line;
    (void)hart;
    count();
    while (__atomic_load_n(&finished, __ATOMIC_ACQUIRE) < (unsigned)harts)
        ;
    end = put_text(end, "plain ");
    end = put_number(end, plain);
    end = put_text(end, " of ");
    end = put_number(end, ROUNDS * (unsigned)harts);
    end = put_text(end, ", guarded ");
    end = put_number(end, guarded);
    end = put_text(end, "\n");
    return write_all(STREAM_OUT, line, end - line);
}
