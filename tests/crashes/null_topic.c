/* Messages go to topics, and topics to their listeners. A topic without listeners for a while is closed. */
#include "draw.h"
#include "heap.h"

#define TOPICS 10
#define STEPS 2000

struct listener {
    unsigned heard;
    unsigned patience;
    struct listener *next;
};

struct topic {
    unsigned number;
    unsigned idle;
    unsigned sent;
    struct listener *listeners;
};

static struct topic *topics[TOPICS];
static unsigned opened, closed, heard, dropped;

static struct topic *open_topic(unsigned number)
{
    struct topic *topic = take(sizeof *topic);
    topic->number = number;
    topic->idle = 0;
    topic->sent = 0;
    topic->listeners = 0;
    topics[number] = topic;
    opened++;
    return topic;
}

static struct topic *topic_of(unsigned number)
{
    return topics[number] ? topics[number] : open_topic(number);
}

static void close_topic(struct topic *topic)
{
    topics[topic->number] = 0;
    closed++;
    give(topic);
}

static void listen(unsigned number, unsigned patience)
{
    struct topic *topic = topic_of(number);
    struct listener *listener = take(sizeof *listener);
    listener->heard = 0;
    listener->patience = patience;
    listener->next = topic->listeners;
    topic->listeners = listener;
}

static void drop_first(struct topic *topic)
{
    struct listener *listener = topic->listeners;
    if (!listener)
        return;
    topic->listeners = listener->next;
    heard += listener->heard;
    dropped++;
    give(listener);
}

static void send(unsigned number, unsigned weight)
{
    struct topic *topic = topic_of(number);
    for (struct listener *listener = topic->listeners; listener; listener = listener->next)
        listener->heard += weight;
    topic->sent++;
    topic->idle = 0;
    if (topic->listeners && topic->listeners->heard > topic->listeners->patience)
        drop_first(topic);
}

static void tick(void)
{
    for (unsigned number = 0; number < TOPICS; number++) {
        struct topic *topic = topics[number];
        if (topic && !topic->listeners && ++topic->idle > 3)
            close_topic(topic);
    }
}

static void move_listener(unsigned from, unsigned to)
{
    struct topic *source = topics[from];
    struct listener *listener;
    if (!source || !source->listeners || from == to)
        return;
    listener = source->listeners;
    source->listeners = listener->next;
    listener->next = topics[to]->listeners;
    topics[to]->listeners = listener;
}

static unsigned busiest(void)
{
    unsigned best = 0, most = 0;
    for (unsigned number = 0; number < TOPICS; number++)
        if (topics[number] && topics[number]->sent > most) {
            most = topics[number]->sent;
            best = number;
        }
    return best;
}

int main(void)
{
    unsigned sum = 0;

    for (unsigned number = 0; number < TOPICS; number++)
        listen(number, 20);
    for (unsigned i = 0; i < STEPS; i++) {
        unsigned what = draw(12);
        if (what < 7)
            send(draw(TOPICS), 1 + draw(5));
        else if (what < 9)
            listen(draw(TOPICS), 10 + draw(40));
        else if (what == 9)
            move_listener(draw(TOPICS), draw(TOPICS));
        else if (what == 10)
            tick();
        else
            sum += busiest();
    }
    return (sum + opened + closed + heard + dropped) & 1;
}
