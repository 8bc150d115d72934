/* A market: hart 1 sets up the stalls, hart 0 sweeps the square and opens the gate, and hart 2 sends visitors in. */
#include "machine.h"

#define STALLS 6
#define GOODS 4
#define VISITORS 30
#define STONES 24

struct stall {
    unsigned left;
    const unsigned *prices;
    unsigned sold;
};

static const unsigned price_lists[3][GOODS] = {{3, 5, 7, 11}, {2, 4, 8, 16}, {9, 6, 3, 1}};
static struct stall room[STALLS];
static struct stall *stalls;
static unsigned gate_is_open;
static unsigned stalls_stand;
static volatile unsigned square[STONES];
static unsigned takings;

static void set_up_stall(struct stall *stall, unsigned number)
{
    stall->left = 5 + number;
    stall->prices = price_lists[number % 3];
    stall->sold = 0;
}

static void set_up(void)
{
    for (unsigned i = 0; i < STALLS; i++)
        set_up_stall(&room[i], i);
    __atomic_store_n(&stalls, room, __ATOMIC_RELEASE);
    __atomic_store_n(&stalls_stand, 1, __ATOMIC_RELEASE);
}

static void sweep(void)
{
    for (unsigned i = 0; i < STONES; i++)
        square[i] = i ^ 5;
}

static struct stall *stall_of(unsigned visitor)
{
    return __atomic_load_n(&stalls, __ATOMIC_ACQUIRE) + visitor % STALLS;
}

static unsigned buy(unsigned visitor)
{
    struct stall *stall = stall_of(visitor);
    unsigned price = stall->prices[visitor % GOODS];

    if (!stall->left)
        return 0;
    stall->left--;
    stall->sold++;
    return price;
}

static unsigned look_round(unsigned visitor)
{
    unsigned cheapest = ~0u;

    for (unsigned i = 0; i < 3; i++) {
        const struct stall *stall = stall_of(visitor + i);
        if (stall->prices[0] < cheapest)
            cheapest = stall->prices[0];
    }
    return cheapest;
}

static void open_gate(void)
{
    __atomic_store_n(&gate_is_open, 1, __ATOMIC_RELEASE);
}

static void wait_for_gate(void)
{
    while (!__atomic_load_n(&gate_is_open, __ATOMIC_ACQUIRE))
        ;
}

int other_harts(int hart, int harts)
{
    (void)harts;
    if (hart == 1) {
        set_up();
        return 0;
    }
    wait_for_gate();
    for (unsigned visitor = 0; visitor < VISITORS; visitor++) {
        if (visitor % 4 == 0)
            takings += look_round(visitor) & 1;
        takings += buy(visitor);
    }
    return 0;
}

int main(void)
{
    sweep();
    open_gate();
    return 0;
}
