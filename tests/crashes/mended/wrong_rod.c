/* Heat along a rod: four harts have four cells each. In a round each hart computes its cells anew from their
   neighbours, and then lays them down for all. The result has to be that of one hart alone. */
#include "machine.h"

#define HARTS 4
#define CELLS 16
#define ROUNDS 5
#define SHARE (CELLS / HARTS)

struct gate {
    unsigned arrived;
    unsigned round;
};

static unsigned heat[CELLS], next[CELLS], expected[CELLS];
static struct gate gate;
static unsigned started;

static void wait_for_all(struct gate *gate)
{
    unsigned round = __atomic_load_n(&gate->round, __ATOMIC_ACQUIRE);

    if (__atomic_add_fetch(&gate->arrived, 1, __ATOMIC_ACQ_REL) == HARTS) {
        __atomic_store_n(&gate->arrived, 0, __ATOMIC_RELEASE);
        __atomic_store_n(&gate->round, round + 1, __ATOMIC_RELEASE);
        return;
    }
    while (__atomic_load_n(&gate->round, __ATOMIC_ACQUIRE) == round)
        ;
}

static unsigned start_heat(unsigned cell)
{
    return cell * cell * 37 % 101 * 16;
}

static unsigned mean(const unsigned *cells, unsigned cell)
{
    unsigned left = cell ? cells[cell - 1] : 0;
    unsigned right = cell + 1 < CELLS ? cells[cell + 1] : 0;

    return (left + 2 * cells[cell] + right) / 4;
}

static void compute(unsigned from, unsigned to)
{
    for (unsigned cell = from; cell < to; cell++)
        next[cell] = mean(heat, cell);
}

static void lay_down(unsigned from, unsigned to)
{
    for (unsigned cell = from; cell < to; cell++)
        heat[cell] = next[cell];
}

static void rounds(unsigned hart)
{
    unsigned from = hart * SHARE, to = from + SHARE;

    for (unsigned round = 0; round < ROUNDS; round++) {
        compute(from, to);
        wait_for_all(&gate);
        lay_down(from, to);
    }
    wait_for_all(&gate);
}

static void expect(void)
{
    unsigned old[CELLS];

    for (unsigned cell = 0; cell < CELLS; cell++)
        expected[cell] = start_heat(cell);
    for (unsigned round = 0; round < ROUNDS; round++) {
        for (unsigned cell = 0; cell < CELLS; cell++)
            old[cell] = expected[cell];
        for (unsigned cell = 0; cell < CELLS; cell++)
            expected[cell] = mean(old, cell);
    }
}

int other_harts(int hart, int harts)
{
    (void)harts;
    while (!__atomic_load_n(&started, __ATOMIC_ACQUIRE))
        ;
    rounds(hart);
    return 0;
}

int main(void)
{
    for (unsigned cell = 0; cell < CELLS; cell++)
        heat[cell] = start_heat(cell);
    expect();
    __atomic_store_n(&started, 1, __ATOMIC_RELEASE);
    rounds(0);
    for (unsigned cell = 0; cell < CELLS; cell++)
        if (heat[cell] != expected[cell])
            end_run(3);
    return 0;
}
