/* Harts 1 and 2 look up places of a table that hart 0 makes larger from time to time. */
#include "machine.h"

#define HARTS 3
#define ROUNDS 60
#define LOOKUPS 250
#define MOST 64

struct seat {
    unsigned *paid;
    unsigned row;
};

struct hall {
    struct seat *seats;
    unsigned count;
    unsigned changes;
};

static struct seat first_room[MOST], second_room[MOST];
static unsigned paid[8];
static struct hall hall;
static volatile unsigned lock, done, began;
static unsigned drawn[HARTS] = {2463534242u, 88172645u, 521288629u}, sums[HARTS];

static unsigned draw_of(unsigned hart, unsigned below)
{
    drawn[hart] ^= drawn[hart] << 13;
    drawn[hart] ^= drawn[hart] >> 17;
    drawn[hart] ^= drawn[hart] << 5;
    return drawn[hart] % below;
}

static void acquire(void)
{
    while (__sync_lock_test_and_set(&lock, 1))
        ;
}

static void release(void)
{
    __sync_lock_release(&lock);
}

static void set_up(struct seat *seat, unsigned number)
{
    seat->paid = &paid[number % 8];
    seat->row = number / 10;
}

static void wipe(struct seat *seats, unsigned count)
{
    for (unsigned i = 0; i < count; i++) {
        seats[i].paid = 0;
        seats[i].row = 0;
    }
}

static void change_room(unsigned count)
{
    struct seat *before = hall.seats;
    struct seat *after = before == first_room ? second_room : first_room;
    for (unsigned i = 0; i < count; i++)
        set_up(&after[i], i);
    acquire();
    hall.seats = after;
    hall.count = count;
    hall.changes++;
    release();
    wipe(before, MOST);
}

static struct seat *seat_of(unsigned number)
{
    struct seat *seat;
    acquire();
    seat = &hall.seats[number % hall.count];
    release();
    return seat;
}

static unsigned price(unsigned hart, unsigned people)
{
    unsigned sum = 0;
    for (unsigned i = 0; i < people; i++)
        sum += 5 + draw_of(hart, 4);
    return sum;
}

static unsigned pay(unsigned hart)
{
    struct seat *seat = seat_of(draw_of(hart, 1000));
    unsigned sum = price(hart, 1 + draw_of(hart, 8));
    *seat->paid += sum;
    return seat->row;
}

static unsigned rows_in_use(void)
{
    unsigned rows;
    acquire();
    rows = hall.seats[hall.count - 1].row + 1;
    release();
    return rows;
}

int other_harts(int hart, int harts)
{
    (void)harts;
    if (hart >= HARTS)
        return 0;
    while (!began)
        ;
    for (unsigned i = 0; i < LOOKUPS; i++)
        sums[hart] += pay(hart) + (i % 9 == 8 ? rows_in_use() : 0);
    __sync_fetch_and_add(&done, 1);
    return 0;
}

int main(void)
{
    unsigned sum = 0;

    hall.seats = second_room;
    change_room(20);
    began = 1;
    for (unsigned i = 0; i < ROUNDS; i++)
        change_room(20 + draw_of(0, MOST - 20));
    while (done < HARTS - 1)
        ;
    for (unsigned i = 0; i < 8; i++)
        sum += paid[i];
    return (sum + sums[1] + sums[2]) & 1;
}
