/* Timers in a list: one that is started twice becomes its own follower, and the walk goes round for ever. */
#include "draw.h"
#include "machine.h"

#define TIMERS 16

struct timer {
    unsigned due;
    unsigned fired;
    struct timer *next;
};

static struct timer timers[TIMERS];
static struct timer *waiting;

static void start(struct timer *timer, unsigned due)
{
    timer->due = due;
    timer->next = waiting;
    waiting = timer;
}

static unsigned fire(unsigned now)
{
    unsigned fired = 0;
    struct timer **link = &waiting, *timer;
    while ((timer = *link)) {
        if (timer->due <= now) {
            *link = timer->next;
            timer->fired++;
            fired++;
        } else {
            link = &timer->next;
        }
    }
    return fired;
}

int main(void)
{
    unsigned sum = 0;

    for (int i = 0; i < TIMERS; i++)
        start(&timers[i], 10 + draw(90));
    for (unsigned now = 0; now < 200; now++) {
        sum += fire(now);
        if (now == 50) {
            start(&timers[7], 300);
            start(&timers[7], 400);
        }
    }
    return sum & 1;
}
