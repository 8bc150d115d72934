/* Four rowers pull together: each waits after its stroke until all have made theirs. Hart 0 counts the strokes. */
#include "machine.h"

#define ROWERS 4
#define STROKES 150

struct gate {
    volatile unsigned arrived;
    volatile unsigned round;
    unsigned longest_wait;
};

struct rower {
    unsigned drawn;
    unsigned strokes;
    unsigned strength;
    unsigned waited;
};

static struct gate gate;
static struct rower rowers[ROWERS];
static volatile unsigned seated, finished;
static unsigned lock, way;

static unsigned draw_of(struct rower *rower, unsigned below)
{
    rower->drawn = rower->drawn * 1103515245 + 12345;
    return (rower->drawn >> 16) % below;
}

static void acquire(void)
{
    while (__sync_lock_test_and_set(&lock, 1))
        ;
}

static void release(void)
{
    __sync_lock_release(&lock);
}

static int is_last(void)
{
    return __sync_add_and_fetch(&gate.arrived, 1) == ROWERS;
}

static void open_gate(void)
{
    gate.round = gate.round + 1;
    __sync_synchronize();
    gate.arrived = 0;
}

static void note_wait(struct rower *rower, unsigned waited)
{
    rower->waited += waited;
    if (waited > gate.longest_wait)
        gate.longest_wait = waited;
}

static void wait_for_others(struct rower *rower)
{
    unsigned round = gate.round, waited = 0;
    if (is_last()) {
        open_gate();
        return;
    }
    while (gate.round == round)
        waited++;
    note_wait(rower, waited);
}

static unsigned pull(struct rower *rower)
{
    unsigned strength = 0;
    for (unsigned i = 0, count = 2 + draw_of(rower, 6); i < count; i++)
        strength += 3 + draw_of(rower, 3);
    rower->strength += strength;
    rower->strokes++;
    return strength;
}

static void move_boat(unsigned strength)
{
    acquire();
    way += strength;
    release();
}

static void row(struct rower *rower)
{
    for (unsigned stroke = 0; stroke < STROKES; stroke++) {
        if (draw_of(rower, 4))
            move_boat(pull(rower));
        else
            rower->strokes++;
        wait_for_others(rower);
    }
    __sync_fetch_and_add(&finished, 1);
}

int other_harts(int hart, int harts)
{
    (void)harts;
    while (!seated)
        ;
    if (hart < ROWERS)
        row(&rowers[hart]);
    return 0;
}

int main(void)
{
    unsigned strength = 0, strokes = 0;

    for (unsigned i = 0; i < ROWERS; i++)
        rowers[i].drawn = 100 * i + 1;
    seated = 1;
    row(&rowers[0]);
    while (finished < ROWERS)
        ;
    for (unsigned i = 0; i < ROWERS; i++) {
        strength += rowers[i].strength;
        strokes += rowers[i].strokes;
    }
    return (strength != way) | (strokes != ROWERS * STROKES);
}
