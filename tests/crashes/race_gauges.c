/* Gauges are added while a program runs. Hart 0 adds them to a board, and two other harts read what is on the board. */
#include "machine.h"

#define HARTS 3
#define GAUGES 40
#define READINGS 400

struct scale {
    unsigned factor;
    unsigned offset;
};

struct gauge {
    unsigned raw;
    const struct scale *scale;
    unsigned reads;
    unsigned highest;
};

static const struct scale scales[] = {{3, 100}, {5, 0}, {1, 1000}};
static struct gauge gauges[GAUGES];
static struct gauge *volatile board[GAUGES];
static volatile unsigned shown, finished;
static unsigned sums[HARTS], drawn[HARTS] = {12, 345, 6789};

static unsigned draw_of(unsigned hart, unsigned below)
{
    drawn[hart] = drawn[hart] * 1103515245 + 12345;
    return (drawn[hart] >> 16) % below;
}

static void calibrate(struct gauge *gauge, unsigned number)
{
    unsigned best = 0;
    for (unsigned i = 0; i < 3; i++)
        if ((number + i) % 3 == 0)
            best = i;
    gauge->scale = &scales[best];
}

static void prepare(struct gauge *gauge, unsigned number)
{
    gauge->raw = 10 * number + draw_of(0, 10);
    gauge->reads = 0;
    gauge->highest = 0;
}

static void show(struct gauge *gauge)
{
    board[shown] = gauge;
    __sync_synchronize();
    shown = shown + 1;
}

static void add_gauge(unsigned number)
{
    struct gauge *gauge = &gauges[number];
    prepare(gauge, number);
    show(gauge);
    calibrate(gauge, number);
}

static unsigned value_of(const struct gauge *gauge)
{
    return gauge->raw * gauge->scale->factor + gauge->scale->offset;
}

static void note(struct gauge *gauge, unsigned value)
{
    __sync_fetch_and_add(&gauge->reads, 1);
    if (value > gauge->highest)
        gauge->highest = value;
}

static void read_one(unsigned hart)
{
    unsigned count = shown;
    struct gauge *gauge;
    unsigned value;
    if (!count)
        return;
    gauge = board[draw_of(hart, 4) ? draw_of(hart, count) : count - 1];
    value = value_of(gauge);
    note(gauge, value);
    sums[hart] += value;
}

static void change(void)
{
    unsigned count = shown;
    for (unsigned i = 0; i < 6; i++)
        gauges[draw_of(0, count)].raw += draw_of(0, 3);
}

int other_harts(int hart, int harts)
{
    (void)harts;
    if (hart >= HARTS)
        return 0;
    for (unsigned i = 0; i < READINGS; i++)
        read_one(hart);
    __sync_fetch_and_add(&finished, 1);
    return 0;
}

int main(void)
{
    unsigned reads = 0;

    for (unsigned i = 0; i < GAUGES; i++) {
        add_gauge(i);
        change();
    }
    while (finished < HARTS - 1)
        ;
    for (unsigned i = 0; i < GAUGES; i++)
        reads += gauges[i].reads;
    return (reads + sums[1] + sums[2]) & 1;
}
