/* A table of parsers: a message's words are copied into a fixed field, and a long one runs over the handler. */
#include "draw.h"
#include "machine.h"

#define CHANNELS 12
#define ROUNDS 400

struct channel {
    char topic[12];
    unsigned (*handle)(struct channel *);
    unsigned messages;
};

static struct channel channels[CHANNELS];
static const char *const topics[] = {"news", "weather", "sports", "markets", "long-range", "local"};

static unsigned count_letters(struct channel *channel)
{
    unsigned letters = 0;
    while (letters < sizeof channel->topic && channel->topic[letters])
        letters++;
    return letters;
}

static unsigned count_messages(struct channel *channel)
{
    return channel->messages;
}

static void set_topic(struct channel *channel, const char *topic, const char *region)
{
    char *to = channel->topic;
    while (*topic)
        *to++ = *topic++;
    *to++ = '/';
    while (*region)
        *to++ = *region++;
    *to = 0;
}

static unsigned serve(struct channel *channel)
{
    channel->messages++;
    return channel->handle(channel);
}

int main(void)
{
    unsigned sum = 0;

    for (int i = 0; i < CHANNELS; i++) {
        channels[i].handle = i % 2 ? count_letters : count_messages;
        set_topic(&channels[i], topics[i % 4], "eu");
    }
    for (int round = 0; round < ROUNDS; round++) {
        if (round == 90)
            set_topic(&channels[7], topics[4], "asia");
        sum += serve(&channels[round < 350 ? draw(6) : draw(CHANNELS)]);
    }
    return sum & 1;
}
