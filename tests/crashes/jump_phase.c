/* Washing machines: each goes through the phases of its program, and a phase is a function that says how long it took. */
#include "draw.h"

#define MACHINES 10
#define ROUNDS 300
#define PHASES 6

struct machine;
typedef unsigned phase(struct machine *machine);

struct machine {
    unsigned char at;
    unsigned char is_short;
    unsigned char dirt;
    unsigned char loads;
    unsigned minutes;
    unsigned water;
};

static unsigned fill(struct machine *machine)
{
    machine->water += 20;
    return 3;
}

static unsigned heat(struct machine *machine)
{
    return machine->is_short ? 6 : 14;
}

static unsigned wash(struct machine *machine)
{
    unsigned minutes = 10 + machine->dirt;
    machine->dirt /= 2;
    return minutes;
}

static unsigned rinse(struct machine *machine)
{
    machine->water += 30;
    return 8;
}

static unsigned spin(struct machine *machine)
{
    machine->water /= 2;
    return 5;
}

static unsigned rest(struct machine *machine)
{
    machine->water = 0;
    machine->loads++;
    return 1;
}

static phase *const phases[PHASES] = {fill, heat, wash, rinse, spin, rest};
static const unsigned lengths[] = {30, 60, 90, 45};
static struct machine machines[MACHINES];

static void load(struct machine *machine)
{
    machine->at = 0;
    machine->is_short = draw(3) == 0;
    machine->dirt = draw(12);
}

static unsigned is_clean(const struct machine *machine)
{
    return machine->dirt < 2;
}

static void go_on(struct machine *machine)
{
    unsigned char step = 1;
    if (machine->at == 2 && !is_clean(machine))
        step = 0;
    else if (machine->is_short && machine->loads % 2)
        step = 2;
    machine->at += step;
    if (machine->at == PHASES)
        load(machine);
}

static void run(struct machine *machine)
{
    machine->minutes += phases[machine->at](machine);
    go_on(machine);
}

static unsigned used_minutes(void)
{
    unsigned sum = 0;
    for (unsigned i = 0; i < MACHINES; i++)
        sum += machines[i].minutes / lengths[i % 4];
    return sum;
}

int main(void)
{
    unsigned sum = 0;

    for (unsigned i = 0; i < MACHINES; i++)
        load(&machines[i]);
    for (unsigned round = 0; round < ROUNDS; round++) {
        run(&machines[draw(MACHINES)]);
        if (round % 50 == 49)
            sum += used_minutes();
    }
    return sum & 1;
}
