/* Ships come into a harbour and leave it: in time, early when a storm comes, or when they are sent away. Free berths are in a list. */
#include "machine.h"

#define HARTS 4
#define BERTHS 6
#define VISITS 150

struct ship {
    unsigned load;
    unsigned visits;
};

struct berth {
    struct berth *next;
    struct ship *ship;
    unsigned depth;
};

struct harbour {
    unsigned lock;
    struct berth *free;
    unsigned left;
    unsigned fled;
    unsigned sent;
};

static struct berth berths[BERTHS];
static struct harbour harbour;
static struct ship ships[HARTS];
static unsigned drawn[HARTS] = {3, 1415, 92653, 58979};
static volatile unsigned opened, finished;

static unsigned draw_of(unsigned hart, unsigned below)
{
    drawn[hart] = drawn[hart] * 1103515245 + 12345;
    return (drawn[hart] >> 16) % below;
}

static void acquire(unsigned *lock)
{
    while (__sync_lock_test_and_set(lock, 1))
        ;
}

static void release(unsigned *lock)
{
    __sync_lock_release(lock);
}

static void put_back(struct berth *berth)
{
    berth->ship = 0;
    berth->next = harbour.free;
    harbour.free = berth;
}

static struct berth *enter(struct ship *ship)
{
    struct berth *berth;
    acquire(&harbour.lock);
    berth = harbour.free;
    if (berth) {
        harbour.free = berth->next;
        berth->ship = ship;
    }
    release(&harbour.lock);
    return berth;
}

static void leave(struct berth *berth)
{
    acquire(&harbour.lock);
    put_back(berth);
    harbour.left++;
    release(&harbour.lock);
}

static void flee(struct berth *berth)
{
    acquire(&harbour.lock);
    harbour.fled++;
    put_back(berth);
    release(&harbour.lock);
}

static void send_away(struct berth *berth)
{
    __sync_fetch_and_add(&harbour.sent, 1);
    put_back(berth);
}

static void unload(struct berth *berth, unsigned much)
{
    for (unsigned i = 0; i < much; i++)
        berth->ship->load += berth->depth;
    berth->ship->visits++;
}

static void visit(unsigned hart)
{
    struct berth *berth = enter(&ships[hart]);
    unsigned what = draw_of(hart, 20);
    if (!berth)
        return;
    unload(berth, 1 + draw_of(hart, 9));
    if (what < 12)
        leave(berth);
    else if (what < 15)
        flee(berth);
    else
        send_away(berth);
}

static void sail(unsigned hart)
{
    for (unsigned i = 0; i < VISITS; i++)
        visit(hart);
    __sync_fetch_and_add(&finished, 1);
}

int other_harts(int hart, int harts)
{
    (void)harts;
    while (!opened)
        ;
    if (hart < HARTS)
        sail(hart);
    return 0;
}

int main(void)
{
    unsigned sum = 0;

    for (unsigned i = 0; i < BERTHS; i++) {
        berths[i].depth = 4 + i;
        put_back(&berths[i]);
    }
    opened = 1;
    sail(0);
    while (finished < HARTS)
        ;
    for (unsigned i = 0; i < HARTS; i++)
        sum += ships[i].visits + ships[i].load;
    return (sum + harbour.sent) & 1;
}
