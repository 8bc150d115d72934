/* Filters are installed in a chain by number and removed again; each sample runs through all of them. */
#include "draw.h"
#include "machine.h"

#define PLACES 6
#define SAMPLES 500

struct filter {
    int (*run)(struct filter *, int);
    int state;
    unsigned uses;
};

struct bank {
    unsigned char count;
    unsigned char order[PLACES + 1];
    struct filter filters[PLACES];
    int gains[PLACES];
};

static struct bank bank;
static unsigned changes;

static int low_pass(struct filter *filter, int sample)
{
    filter->state += (sample - filter->state) / 4;
    return filter->state;
}

static int high_pass(struct filter *filter, int sample)
{
    int low = low_pass(filter, sample);
    return sample - low;
}

static int limit(struct filter *filter, int sample)
{
    (void)filter;
    return sample > 900 ? 900 : sample < -900 ? -900 : sample;
}

static int hold(struct filter *filter, int sample)
{
    if (sample > filter->state)
        filter->state = sample;
    else
        filter->state -= filter->state / 64;
    return filter->state / 2;
}

static int (*const kinds[])(struct filter *, int) = {low_pass, high_pass, limit, hold};

static int is_used(unsigned place)
{
    for (unsigned i = 0; i < bank.count; i++)
        if (bank.order[i] == place)
            return 1;
    return 0;
}

static unsigned free_place(void)
{
    unsigned place = 0;
    while (place < PLACES && is_used(place))
        place++;
    return place;
}

static void install(unsigned kind)
{
    unsigned place = free_place();
    if (bank.count > PLACES)
        return;
    bank.filters[place].run = kinds[kind];
    bank.filters[place].state = 0;
    bank.filters[place].uses = 0;
    bank.gains[place] = 3 + draw(3);
    bank.order[bank.count++] = place;
    changes++;
}

static void uninstall(unsigned at)
{
    if (at >= bank.count)
        return;
    bank.filters[bank.order[at]].run = 0;
    for (unsigned i = at; i + 1 < bank.count; i++)
        bank.order[i] = bank.order[i + 1];
    bank.count--;
    changes++;
}

static int process(int sample)
{
    for (unsigned i = 0; i < bank.count; i++) {
        struct filter *filter = &bank.filters[bank.order[i]];
        filter->uses++;
        sample = filter->run(filter, sample) * bank.gains[bank.order[i]] / 4;
    }
    return sample;
}

int main(void)
{
    int sum = 0;

    for (unsigned i = 0; i < SAMPLES; i++) {
        unsigned what = draw(20);
        if (what == 0 || (i > 300 && what < 4))
            install(draw(4));
        else if (what >= 4 && what < 7 && bank.count)
            uninstall(draw(bank.count));
        sum += process((int)draw(2000) - 1000);
    }
    return (sum + changes) & 1;
}
