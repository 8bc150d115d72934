/* Channels collect samples; a full channel is smoothed and handed to its sink. */
#include "draw.h"
#include "machine.h"

#define CHANNELS 7
#define SAMPLES 10
#define ROUNDS 900

struct sink {
    unsigned total;
    unsigned blocks;
    unsigned peak;
};

struct channel {
    unsigned rate;
    unsigned count;
    unsigned samples[SAMPLES];
    struct sink *sink;
    unsigned missed;
};

static struct channel channels[CHANNELS];
static struct sink sinks[3];

static void set_up(void)
{
    for (unsigned i = 0; i < CHANNELS; i++) {
        channels[i].rate = 2 + i % 3;
        channels[i].count = 0;
        channels[i].sink = &sinks[i % 3];
    }
}

static void add_sample(struct channel *channel, unsigned value)
{
    if (channel->count > SAMPLES) {
        channel->missed++;
        return;
    }
    channel->samples[channel->count++] = value;
}

static void smooth(struct channel *channel)
{
    unsigned before = channel->samples[0];
    for (unsigned i = 1; i + 1 < channel->count && i + 1 < SAMPLES; i++) {
        unsigned now = channel->samples[i];
        channel->samples[i] = (before + 2 * now + channel->samples[i + 1]) / 4;
        before = now;
    }
}

static unsigned peak_of(const struct channel *channel)
{
    unsigned peak = 0;
    for (unsigned i = 0; i < channel->count && i < SAMPLES; i++)
        if (channel->samples[i] > peak)
            peak = channel->samples[i];
    return peak;
}

static void hand_over(struct channel *channel)
{
    smooth(channel);
    struct sink *sink = channel->sink;
    unsigned peak = peak_of(channel);
    for (unsigned i = 0; i < channel->count && i < SAMPLES; i++)
        sink->total += channel->samples[i];
    sink->blocks++;
    if (peak > sink->peak)
        sink->peak = peak;
    channel->count = 0;
}

static int is_due(const struct channel *channel, unsigned round)
{
    return round % (8 * channel->rate) == 8 * channel->rate - 1;
}

static unsigned report(void)
{
    unsigned sum = 0;
    for (unsigned i = 0; i < 3; i++)
        sum = sum * 31 + sinks[i].total + sinks[i].blocks + sinks[i].peak;
    return sum;
}

int main(void)
{
    unsigned sum = 0;

    set_up();
    for (unsigned round = 0; round < ROUNDS; round++) {
        for (unsigned i = 0; i < CHANNELS; i++) {
            struct channel *channel = &channels[i];
            if (draw(100) < (round < 500 ? 30u : 42u))
                add_sample(channel, 100 + draw(4000));
            if (is_due(channel, round))
                hand_over(channel);
        }
        if (round % 100 == 99)
            sum += report();
    }
    return sum & 1;
}
