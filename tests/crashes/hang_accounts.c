/* Two harts move money between accounts. Each account has its lock, and a move holds both. */
#include "machine.h"

#define ACCOUNTS 6
#define MOVES 250

struct account {
    volatile unsigned lock;
    int money;
    unsigned moves;
    unsigned fees;
};

struct teller {
    unsigned drawn;
    unsigned refused;
};

static struct account accounts[ACCOUNTS];
static struct teller tellers[2] = {{77, 0}, {1234, 0}};
static volatile unsigned finished;

static unsigned draw_of(struct teller *teller, unsigned below)
{
    teller->drawn = teller->drawn * 1103515245 + 12345;
    return (teller->drawn >> 16) % below;
}

static void acquire(volatile unsigned *lock)
{
    while (__sync_lock_test_and_set(lock, 1))
        ;
}

static void release(volatile unsigned *lock)
{
    __sync_lock_release(lock);
}

static void acquire_both(struct account *one, struct account *other)
{
    struct account *first = one < other ? one : other;
    struct account *second = one < other ? other : one;
    acquire(&first->lock);
    acquire(&second->lock);
}

static void release_both(struct account *one, struct account *other)
{
    release(&one->lock);
    release(&other->lock);
}

static void move(struct teller *teller, struct account *from, struct account *to, int money)
{
    acquire_both(from, to);
    if (from->money >= money) {
        from->money -= money;
        to->money += money;
        from->moves++;
        to->moves++;
    } else {
        teller->refused++;
    }
    release_both(from, to);
}

static void close_month(struct account *account)
{
    struct account *bank = &accounts[0];
    acquire(&account->lock);
    if (account->moves > 2) {
        acquire(&bank->lock);
        bank->money += 2;
        release(&bank->lock);
        account->money -= 2;
        account->fees += 2;
    }
    account->moves = 0;
    release(&account->lock);
}

static void work(unsigned hart)
{
    struct teller *teller = &tellers[hart];
    for (unsigned i = 0; i < MOVES; i++) {
        unsigned from = draw_of(teller, ACCOUNTS), to = draw_of(teller, ACCOUNTS);
        if (from != to)
            move(teller, &accounts[from], &accounts[to], draw_of(teller, 50));
        if (i % 5 == 4)
            close_month(&accounts[1 + draw_of(teller, ACCOUNTS - 1)]);
    }
    __sync_fetch_and_add(&finished, 1);
}

int other_harts(int hart, int harts)
{
    (void)harts;
    if (hart == 1)
        work(1);
    return 0;
}

int main(void)
{
    int sum = 0;

    for (unsigned i = 0; i < ACCOUNTS; i++)
        accounts[i].money = 1000;
    work(0);
    while (finished < 2)
        ;
    for (unsigned i = 0; i < ACCOUNTS; i++)
        sum += accounts[i].money;
    return sum & 1;
}
