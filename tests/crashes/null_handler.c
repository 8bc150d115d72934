/* Devices give events, and handlers listen to them. A handler can leave while an event is told to all. */
#include "draw.h"
#include "machine.h"

#define MOST_HANDLERS 12
#define KINDS 5
#define EVENTS 400

struct event {
    unsigned kind;
    unsigned value;
    unsigned time;
};

struct handler {
    unsigned (*call)(struct handler *, const struct event *);
    unsigned mask;
    unsigned seen;
    unsigned state;
    unsigned place;
};

static struct handler pool[MOST_HANDLERS];
static struct handler *handlers[MOST_HANDLERS];
static unsigned used;

static void join(struct handler *handler, unsigned (*call)(struct handler *, const struct event *), unsigned mask)
{
    handler->call = call;
    handler->mask = mask;
    handler->place = used;
    handlers[used++] = handler;
}

static void leave(struct handler *handler)
{
    unsigned place = handler->place;
    used--;
    handlers[place] = handlers[used];
    handlers[place]->place = place;
    handlers[used] = 0;
}

static unsigned count_events(struct handler *handler, const struct event *event)
{
    handler->state += event->value;
    return handler->state;
}

static unsigned keep_greatest(struct handler *handler, const struct event *event)
{
    if (event->value > handler->state)
        handler->state = event->value;
    return handler->state;
}

static unsigned wait_for_peak(struct handler *handler, const struct event *event)
{
    handler->state++;
    if (event->value > 990) {
        leave(handler);
        return event->time;
    }
    return 0;
}

static unsigned tell(const struct event *event)
{
    unsigned answers = 0;
    for (unsigned at = 0, all = used; at < all; at++) {
        struct handler *handler = handlers[at];
        if (handler->mask >> event->kind & 1) {
            handler->seen++;
            answers += handler->call(handler, event);
        }
    }
    return answers;
}

static struct event next_event(unsigned now)
{
    struct event event;
    event.kind = draw(KINDS);
    event.value = draw(now < 200 ? 900 : 1000);
    event.time = now;
    return event;
}

static void set_up(void)
{
    join(&pool[0], count_events, 31);
    join(&pool[1], keep_greatest, 7);
    join(&pool[2], wait_for_peak, 31);
    join(&pool[3], count_events, 12);
    join(&pool[4], keep_greatest, 24);
    join(&pool[5], wait_for_peak, 3);
    join(&pool[6], count_events, 1);
}

int main(void)
{
    unsigned sum = 0;

    set_up();
    for (unsigned now = 0; now < EVENTS; now++) {
        struct event event = next_event(now);
        sum ^= tell(&event);
        if (now % 64 == 63)
            sum += pool[0].state + pool[1].state + pool[4].seen;
    }
    return sum & 1;
}
