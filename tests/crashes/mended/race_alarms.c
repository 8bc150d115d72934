/* Alarms: hart 0 rings those that are due, and hart 1 sets and cancels them. */
#include "machine.h"

#define ALARMS 4
#define TICKS 30

struct alarm {
    unsigned due;
    unsigned rung;
    void (*ring)(struct alarm *alarm);
};

static struct alarm alarms[ALARMS];
static unsigned alarms_lock;
static unsigned now;
static unsigned beeps, flashes;
static unsigned ready;

static void lock(void)
{
    while (__atomic_exchange_n(&alarms_lock, 1, __ATOMIC_ACQUIRE))
        ;
}

static void unlock(void)
{
    __atomic_store_n(&alarms_lock, 0, __ATOMIC_RELEASE);
}

static void beep(struct alarm *alarm)
{
    beeps += alarm->due & 3;
}

static void flash(struct alarm *alarm)
{
    flashes += alarm->rung;
}

static void set(struct alarm *alarm, unsigned due)
{
    lock();
    alarm->due = due;
    alarm->ring = due & 1 ? beep : flash;
    unlock();
}

static void cancel(struct alarm *alarm)
{
    lock();
    alarm->ring = 0;
    alarm->due = 0;
    unlock();
}

static void cancel_late(unsigned time)
{
    for (unsigned i = 0; i < ALARMS; i++)
        if (alarms[i].due && alarms[i].due + 2 < time) {
            alarms[i].due = 0;
            __atomic_store_n(&alarms[i].ring, 0, __ATOMIC_RELEASE);
        }
}

static int is_due(struct alarm *alarm, unsigned time)
{
    int due;

    lock();
    due = alarm->ring && alarm->due <= time;
    unlock();
    return due;
}

static void tick(unsigned time)
{
    __atomic_store_n(&now, time, __ATOMIC_RELEASE);
    for (unsigned i = 0; i < ALARMS; i++) {
        struct alarm *alarm = &alarms[i];
        if (is_due(alarm, time)) {
            alarm->rung++;
            alarm->ring(alarm);
        }
    }
}

int other_harts(int hart, int harts)
{
    (void)harts;
    while (!__atomic_load_n(&ready, __ATOMIC_ACQUIRE))
        ;
    for (unsigned i = 0; hart == 1 && i < TICKS; i++) {
        unsigned time = __atomic_load_n(&now, __ATOMIC_ACQUIRE);
        set(&alarms[i % ALARMS], time + 1 + i % 5);
        if (i % 6 == 5)
            cancel(&alarms[(i + 2) % ALARMS]);
        if (i % 10 == 9)
            cancel_late(time);
    }
    return 0;
}

int main(void)
{
    __atomic_store_n(&ready, 1, __ATOMIC_RELEASE);
    for (unsigned time = 1; time <= TICKS; time++)
        tick(time);
    return 0;
}
