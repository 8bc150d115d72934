/* Sounds are sorted into levels by their loudness, and each level has a filter that smooths what belongs to it. */
#include "draw.h"
#include "machine.h"

#define SAMPLES 60
#define SOUNDS 40
#define LEVELS 5
#define QUIET 4

struct filter {
    unsigned char weights[3];
    unsigned char shift;
    unsigned used;
};

struct sound {
    short samples[SAMPLES];
    unsigned loudness;
    unsigned peak;
};

static struct bank {
    unsigned version, sounds;
    struct filter *of_level[LEVELS];
} bank;

static struct filter filters[LEVELS] = {{{1, 2, 1}, 2, 0}, {{2, 4, 2}, 3, 0}, {{1, 6, 1}, 3, 0}, {{3, 2, 3}, 3, 0}, {{0, 4, 0}, 2, 0}};
static struct sound sounds[SOUNDS];

static void hear(struct sound *sound, unsigned number)
{
    unsigned volume = number == 31 ? 3 : 40 + draw(100);
    for (unsigned i = 0; i < SAMPLES; i++)
        sound->samples[i] = (short)draw(volume) - (short)(volume / 2);
}

static unsigned size(int value)
{
    return value < 0 ? -value : value;
}

static void measure(struct sound *sound)
{
    unsigned sum = 0;
    sound->peak = 0;
    for (unsigned i = 0; i < SAMPLES; i++) {
        sum += size(sound->samples[i]);
        if (size(sound->samples[i]) > sound->peak)
            sound->peak = size(sound->samples[i]);
    }
    sound->loudness = sum / SAMPLES;
}

static unsigned magnitude(unsigned value)
{
    unsigned bits = 0;
    while (value >> bits)
        bits++;
    return bits;
}

static unsigned level_of(const struct sound *sound)
{
    unsigned level = magnitude(sound->loudness) - QUIET + 1;
    return (int)level < LEVELS ? level : LEVELS - 1;
}

static void smooth(struct sound *sound, struct filter *filter)
{
    int before = 0;
    filter->used++;
    for (unsigned i = 1; i + 1 < SAMPLES; i++) {
        int sum = before * filter->weights[0] + sound->samples[i] * filter->weights[1];
        sum += sound->samples[i + 1] * filter->weights[2];
        before = sound->samples[i];
        sound->samples[i] = sum / (1 << filter->shift);
    }
}

static unsigned handle(struct sound *sound)
{
    measure(sound);
    smooth(sound, bank.of_level[level_of(sound)]);
    bank.sounds++;
    return sound->peak;
}

static void set_up(void)
{
    bank.version = 3;
    for (unsigned i = 0; i < LEVELS; i++)
        bank.of_level[i] = &filters[i];
}

int main(void)
{
    unsigned sum = 0;

    set_up();
    for (unsigned i = 0; i < SOUNDS; i++) {
        hear(&sounds[i], i);
        sum += handle(&sounds[i]);
    }
    for (unsigned i = 0; i < LEVELS; i++)
        sum += filters[i].used * i;
    return sum & 1;
}
