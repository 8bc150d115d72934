/* Three harts work in rounds: at a barrier each waits for the others. Hart 0 can end the work early. */
#include "machine.h"

#define HARTS 3
#define ROUNDS 60
#define CELLS 24

struct barrier {
    unsigned arrived;
    volatile unsigned round;
};

static struct barrier barrier;
static volatile unsigned cells[2][CELLS];
static volatile unsigned stop_after = ROUNDS;
static unsigned changes[HARTS];

static void wait_for_all(void)
{
    unsigned round = barrier.round;
    if (__sync_add_and_fetch(&barrier.arrived, 1) == HARTS) {
        barrier.arrived = 0;
        __sync_synchronize();
        barrier.round = round + 1;
    } else {
        while (barrier.round == round)
            ;
    }
}

static unsigned neighbours(unsigned from, unsigned cell)
{
    unsigned left = cells[from][(cell + CELLS - 1) % CELLS];
    unsigned right = cells[from][(cell + 1) % CELLS];
    return left + right;
}

static unsigned next_value(unsigned from, unsigned cell)
{
    unsigned sum = neighbours(from, cell), old = cells[from][cell];
    return (3 * old + 2 * sum + 1) % 31;
}

static void step(unsigned hart, unsigned round)
{
    unsigned from = round % 2;
    for (unsigned cell = hart; cell < CELLS; cell += HARTS) {
        unsigned value = next_value(from, cell);
        if (value != cells[from][cell])
            changes[hart]++;
        cells[1 - from][cell] = value;
    }
}

static unsigned is_stable(unsigned round)
{
    unsigned same = 0;
    for (unsigned cell = 0; cell < CELLS; cell++)
        same += cells[0][cell] == cells[1][cell];
    return same >= 1 && round > 20;
}

static void decide(unsigned round)
{
    if (is_stable(round) && stop_after == ROUNDS)
        stop_after = round + 1;
}

static void work(unsigned hart)
{
    for (unsigned round = 0; round < stop_after; round++) {
        step(hart, round);
        wait_for_all();
        if (hart == 0)
            decide(round);
    }
}

static unsigned total(void)
{
    unsigned sum = 0;
    for (unsigned cell = 0; cell < CELLS; cell++)
        sum = sum * 5 + cells[0][cell];
    for (unsigned hart = 0; hart < HARTS; hart++)
        sum += changes[hart];
    return sum;
}

static void set_up(void)
{
    for (unsigned cell = 0; cell < CELLS; cell++) {
        cells[0][cell] = (cell * cell + 3) % 31;
        cells[1][cell] = 0;
    }
}

int other_harts(int hart, int harts)
{
    (void)harts;
    if (hart < HARTS) {
        wait_for_all();
        work(hart);
    }
    return 0;
}

int main(void)
{
    set_up();
    wait_for_all();
    work(0);
    return total() & 1;
}
