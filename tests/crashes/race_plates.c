/* Plates lie on a stack that harts share without a lock: the top is changed by a comparison. A clean plate has a cloth on it. */
#include "machine.h"

#define HARTS 4
#define PLATES 6
#define MEALS 220

struct cloth {
    unsigned colour;
    unsigned washed;
};

struct plate {
    struct plate *volatile next;
    struct cloth *cloth;
    unsigned used;
};

struct waiter {
    unsigned drawn;
    unsigned meals;
    unsigned colours;
    unsigned wear;
};

static struct plate plates[PLATES];
static struct cloth cloths[PLATES];
static struct plate *volatile top;
static struct waiter waiters[HARTS] = {{7, 0, 0, 0}, {77, 0, 0, 0}, {777, 0, 0, 0}, {7777, 0, 0, 0}};
static volatile unsigned opened, finished;

static unsigned draw_of(struct waiter *waiter, unsigned below)
{
    waiter->drawn = waiter->drawn * 1103515245 + 12345;
    return (waiter->drawn >> 16) % below;
}

static void push(struct plate *plate)
{
    struct plate *old;
    do {
        old = top;
        plate->next = old;
    } while (!__sync_bool_compare_and_swap(&top, old, plate));
}

static unsigned wear_of(const struct plate *plate)
{
    unsigned wear = 0;
    for (unsigned bit = 0; bit < 32; bit++)
        wear += plate->used >> bit & 1;
    return wear;
}

static struct plate *pop(struct waiter *waiter)
{
    struct plate *old, *next;
    do {
        old = top;
        if (!old)
            return 0;
        next = old->next;
        if (waiter->meals % 8 == 7)
            waiter->wear += wear_of(old);
    } while (!__sync_bool_compare_and_swap(&top, old, next));
    return old;
}

static struct cloth *uncover(struct plate *plate)
{
    struct cloth *cloth = plate->cloth;
    plate->cloth = 0;
    return cloth;
}

static void cover(struct plate *plate, struct cloth *cloth)
{
    cloth->washed++;
    plate->cloth = cloth;
}

static void eat(struct waiter *waiter, struct plate *plate)
{
    for (volatile unsigned i = draw_of(waiter, 12); i; i--)
        ;
    plate->used++;
    waiter->meals++;
}

static void put_back(struct plate *plate, struct cloth *cloth)
{
    cover(plate, cloth);
    push(plate);
}

static void serve(struct waiter *waiter)
{
    struct plate *plate = pop(waiter);
    struct cloth *cloth;
    if (!plate)
        return;
    cloth = uncover(plate);
    waiter->colours += cloth->colour;
    if (draw_of(waiter, 4))
        eat(waiter, plate);
    put_back(plate, cloth);
}

static void serve_two(struct waiter *waiter)
{
    struct plate *one = pop(waiter), *other = pop(waiter);
    struct cloth *cloth = other ? uncover(other) : 0;
    if (one)
        push(one);
    if (!other)
        return;
    waiter->colours += cloth->colour;
    eat(waiter, other);
    put_back(other, cloth);
}

static void work(struct waiter *waiter)
{
    for (unsigned i = 0; i < MEALS; i++) {
        if (draw_of(waiter, 2))
            serve_two(waiter);
        else
            serve(waiter);
    }
    __sync_fetch_and_add(&finished, 1);
}

int other_harts(int hart, int harts)
{
    (void)harts;
    while (!opened)
        ;
    if (hart < HARTS)
        work(&waiters[hart]);
    return 0;
}

int main(void)
{
    unsigned sum = 0;

    for (unsigned i = 0; i < PLATES; i++) {
        cloths[i].colour = 1 + i;
        plates[i].cloth = &cloths[i];
        push(&plates[i]);
    }
    opened = 1;
    work(&waiters[0]);
    while (finished < HARTS)
        ;
    for (unsigned i = 0; i < HARTS; i++)
        sum += waiters[i].colours + waiters[i].meals + waiters[i].wear;
    return sum & 1;
}
