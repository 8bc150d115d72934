/* Three harts put their results into one list: each takes the next place and fills it. Hart 0 adds all up at the end. */
#include "machine.h"

#define HARTS 3
#define RESULTS 40
#define PLACES (HARTS * RESULTS)

struct result {
    unsigned hart;
    unsigned number;
    unsigned value;
    unsigned checked;
};

static struct result pool[HARTS][RESULTS];
static struct result *volatile list[PLACES];
static volatile unsigned next_place;
static unsigned finished;

static unsigned compute(unsigned hart, unsigned number)
{
    unsigned value = hart * 1000 + number;
    while (value > 10 && value % 7)
        value = value % 2 ? 3 * value + 1 : value / 2;
    return value;
}

static unsigned take_place(void)
{
    unsigned place = next_place;
    next_place = place + 1;
    return place;
}

static void put_result(unsigned hart, unsigned number)
{
    struct result *result = &pool[hart][number];
    result->hart = hart;
    result->number = number;
    result->value = compute(hart, number);
    list[take_place()] = result;
}

static void work(unsigned hart)
{
    for (unsigned i = 0; i < RESULTS; i++)
        put_result(hart, i);
    __sync_fetch_and_add(&finished, 1);
}

static unsigned check(struct result *result)
{
    result->checked = result->value < 100000;
    return result->checked;
}

static unsigned add_up(void)
{
    unsigned sum = 0, good = 0;
    for (unsigned i = 0; i < PLACES; i++) {
        struct result *result = list[i];
        good += check(result);
        sum += result->value;
    }
    return sum + good;
}

static unsigned greatest(void)
{
    unsigned best = 0;
    for (unsigned i = 1; i < PLACES; i++)
        if (list[i]->value > list[best]->value)
            best = i;
    return best;
}

static unsigned median(void)
{
    unsigned below = 0, best = 0, least = PLACES;
    for (unsigned i = 0; i < PLACES; i += 3) {
        below = 0;
        for (unsigned j = 0; j < PLACES; j++)
            below += list[j]->value < list[i]->value;
        unsigned off = below > PLACES / 2 ? below - PLACES / 2 : PLACES / 2 - below;
        if (off < least) {
            least = off;
            best = i;
        }
    }
    return list[best]->value;
}

int other_harts(int hart, int harts)
{
    (void)harts;
    if (hart < HARTS)
        work(hart);
    return 0;
}

int main(void)
{
    unsigned sum;

    work(0);
    while (*(volatile unsigned *)&finished < HARTS)
        ;
    sum = add_up();
    sum += greatest();
    sum += median();
    return sum & 1;
}
