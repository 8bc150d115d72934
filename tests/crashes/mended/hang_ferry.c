/* A ferry with two travellers: hart 0 is the ferry, harts 1 and 2 cross the river on it again and again. */
#include "machine.h"

#define TRIPS 12
#define SEATS 2

struct event {
    unsigned times;
};

static struct event boarding, landing;
static unsigned aboard;
static unsigned landed_trip;
static unsigned fares;
static volatile unsigned river[8];

static unsigned times_of(struct event *event)
{
    return __atomic_load_n(&event->times, __ATOMIC_ACQUIRE);
}

static void signal(struct event *event)
{
    __atomic_fetch_add(&event->times, 1, __ATOMIC_ACQ_REL);
}

static void wait_beyond(struct event *event, unsigned seen)
{
    while (times_of(event) == seen)
        ;
}

static unsigned row(unsigned trip)
{
    unsigned sum = trip;

    for (unsigned i = 0; i < 8; i++) {
        river[i] += trip + i;
        sum += river[i];
    }
    return sum;
}

static void wait_until_full(void)
{
    while (__atomic_load_n(&aboard, __ATOMIC_ACQUIRE) < SEATS) {
        unsigned seen = times_of(&boarding);
        wait_beyond(&boarding, seen);
    }
}

static void wait_for_landing(unsigned trip)
{
    while (__atomic_load_n(&landed_trip, __ATOMIC_ACQUIRE) <= trip) {
        unsigned seen = times_of(&landing);
        wait_beyond(&landing, seen);
    }
}

static void board(void)
{
    __atomic_fetch_add(&aboard, 1, __ATOMIC_ACQ_REL);
    signal(&boarding);
}

static void land(unsigned trip)
{
    __atomic_store_n(&aboard, 0, __ATOMIC_RELEASE);
    __atomic_store_n(&landed_trip, trip + 1, __ATOMIC_RELEASE);
    signal(&landing);
}

int other_harts(int hart, int harts)
{
    (void)harts;
    for (unsigned trip = 0; trip < TRIPS; trip++) {
        row(hart + trip % 3);
        board();
        wait_for_landing(trip);
    }
    return 0;
}

int main(void)
{
    for (unsigned trip = 0; trip < TRIPS; trip++) {
        wait_until_full();
        fares += row(trip) & 3;
        land(trip);
    }
    return 0;
}
