/* Two harts hand out permits of a pool of six: one takes them for long jobs, the other for short ones. Who finds too few waits. */
#include "machine.h"

#define PERMITS 6
#define ROUNDS 60

struct pool {
    unsigned lock;
    volatile unsigned free;
    volatile unsigned waiting;
};

static struct pool pool = {0, PERMITS, 0};
static volatile unsigned finished;
static unsigned drawn[2] = {88172645u, 521288629u}, work_done[2], refused[2];

static unsigned draw_of(unsigned hart, unsigned below)
{
    drawn[hart] ^= drawn[hart] << 13;
    drawn[hart] ^= drawn[hart] >> 17;
    drawn[hart] ^= drawn[hart] << 5;
    return drawn[hart] % below;
}

static void acquire(void)
{
    while (__sync_lock_test_and_set(&pool.lock, 1))
        ;
}

static void release(void)
{
    __sync_lock_release(&pool.lock);
}

static unsigned try_take(unsigned count)
{
    unsigned taken = 0;
    acquire();
    if (pool.free >= count) {
        pool.free -= count;
        taken = count;
    } else {
        pool.waiting++;
    }
    release();
    return taken;
}

static void give_back(unsigned count)
{
    acquire();
    pool.free += count;
    if (pool.waiting)
        pool.waiting--;
    release();
}

static unsigned take(unsigned count)
{
    while (!try_take(count))
        while (pool.free < count)
            ;
    return count;
}

static unsigned work(unsigned hart, unsigned amount)
{
    unsigned sum = 0;
    for (unsigned i = 0; i < amount; i++)
        sum += i * i % 7;
    work_done[hart] += amount;
    return sum;
}

static unsigned long_job(unsigned hart)
{
    unsigned count = take(1 + draw_of(hart, 3)), sum = work(hart, 20);
    if (draw_of(hart, 5) == 0) {
        refused[hart]++;
        if (count > 2)
            return sum;
    }
    give_back(count);
    return sum;
}

static unsigned short_job(unsigned hart)
{
    unsigned count = take(1 + draw_of(hart, 2)), sum = work(hart, 4);
    give_back(count);
    return sum;
}

int other_harts(int hart, int harts)
{
    unsigned sum = 0;
    (void)harts;
    if (hart == 1) {
        for (unsigned i = 0; i < ROUNDS; i++)
            sum += short_job(1);
        finished = 1;
    }
    return sum & 1;
}

int main(void)
{
    unsigned sum = 0;

    for (unsigned i = 0; i < ROUNDS; i++)
        sum += long_job(0);
    while (!finished)
        ;
    return (sum + refused[0] + work_done[1]) & 1;
}
