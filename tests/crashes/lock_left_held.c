/* Two harts with one lock: transfer() returns early if there isn't enough money, and the lock stays held. */
#include "draw.h"
#include "machine.h"

#define ACCOUNTS 8

static unsigned lock;
static volatile int accounts[ACCOUNTS];

static void acquire(void)
{
    while (__atomic_exchange_n(&lock, 1, __ATOMIC_ACQUIRE))
        ;
}

static void release(void)
{
    __atomic_store_n(&lock, 0, __ATOMIC_RELEASE);
}

static int transfer(unsigned from, unsigned to, int amount)
{
    acquire();
    if (accounts[from] < amount)
        return 0;
    accounts[from] -= amount;
    accounts[to] += amount;
    release();
    return 1;
}

static int total(void)
{
    int sum = 0;
    acquire();
    for (int i = 0; i < ACCOUNTS; i++)
        sum += accounts[i];
    release();
    return sum;
}

int other_harts(int hart, int harts)
{
    int sum = hart;
    (void)harts;
    for (int i = 0; i < 200; i++)
        sum += total();
    return sum & 1;
}

int main(void)
{
    for (int i = 0; i < ACCOUNTS; i++)
        accounts[i] = 300;
    for (int i = 0; i < 400; i++)
        transfer(draw(ACCOUNTS), draw(ACCOUNTS), draw(120));
    return 0;
}
