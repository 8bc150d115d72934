/* Three harts trade: each has a purse of coins with a lock, and a shop that all of them buy from. */
#include "draw.h"
#include "machine.h"

#define HARTS 3
#define ROUNDS 25
#define COINS 24
#define RANKS (HARTS * COINS / 8 + 1)

struct purse {
    unsigned lock;
    unsigned coins;
    unsigned deals;
};

static struct purse purses[HARTS];
static const unsigned rank_bonus[RANKS] = {0, 1, 1, 2, 3, 5, 8, 13, 21, 34};
static unsigned started;

static void lock(unsigned *word)
{
    while (__atomic_exchange_n(word, 1, __ATOMIC_ACQUIRE))
        ;
}

static void unlock(unsigned *word)
{
    __atomic_store_n(word, 0, __ATOMIC_RELEASE);
}

static int has(struct purse *purse, unsigned price)
{
    int enough;

    lock(&purse->lock);
    enough = purse->coins >= price;
    unlock(&purse->lock);
    return enough;
}

static void take(struct purse *purse, unsigned price)
{
    lock(&purse->lock);
    purse->coins -= price;
    purse->deals++;
    unlock(&purse->lock);
}

static void put(struct purse *purse, unsigned price)
{
    lock(&purse->lock);
    purse->coins += price;
    unlock(&purse->lock);
}

static unsigned bonus(struct purse *purse)
{
    unsigned coins;

    lock(&purse->lock);
    coins = purse->coins;
    unlock(&purse->lock);
    return rank_bonus[coins / 8];
}

static int buy(struct purse *from, struct purse *to, unsigned price)
{
    if (!has(from, price))
        return 0;
    take(from, price);
    put(to, price);
    return 1;
}

static int tax(struct purse *from, struct purse *to)
{
    if (!has(from, 2))
        return 0;
    take(from, 2);
    put(to, 2);
    return 1;
}

static unsigned trade(unsigned hart)
{
    unsigned sum = hart, seed = hart * 7919 + 17;

    for (unsigned i = 0; i < ROUNDS; i++) {
        seed = seed * 1103515245 + 12345;
        if (seed >> 30)
            buy(&purses[hart], &purses[(hart + 1 + i % 2) % HARTS], 1 + (seed >> 20) % 5);
        else
            tax(&purses[(hart + 1) % HARTS], &purses[hart]);
        sum += bonus(&purses[hart]);
    }
    return sum;
}

int other_harts(int hart, int harts)
{
    (void)harts;
    while (!__atomic_load_n(&started, __ATOMIC_ACQUIRE))
        ;
    return trade(hart) & 1;
}

int main(void)
{
    for (unsigned i = 0; i < HARTS; i++)
        purses[i].coins = i == 0 ? COINS : draw(COINS);
    __atomic_store_n(&started, 1, __ATOMIC_RELEASE);
    return trade(0) & 1;
}
