/* Stations count the vehicles that pass in each hour of a day. The bug: one day is a minute longer, since a clock
   is set back, and `count` takes minute 1440 for hour 24. That is behind the table: the pointer to the station's
   limits grows by one. It is used in the report alone, millions of instructions later. */
#include "machine.h"

#define STATIONS 16
#define HOURS 24
#define DAYS 100
#define MINUTES 1440

struct limits {
    unsigned greatest;
    unsigned of_the_day;
};

struct station {
    unsigned vehicles[HOURS];
    const struct limits *limits;
};

static const struct limits road = {40, 600}, motorway = {90, 1400};
static struct station stations[STATIONS];
static unsigned random = 2463534242u;

static unsigned draw(unsigned below)
{
    random ^= random << 13;
    random ^= random >> 17;
    random ^= random << 5;
    return random % below;
}

static void count(struct station *station, unsigned minute)
{
    station->vehicles[minute / 60]++;   /* the bug: is it an hour of the table? */
}

static void one_day(unsigned minutes)
{
    for (unsigned minute = 0; minute < minutes; minute++) {
        unsigned passed = draw(32);
        if (passed < STATIONS)
            count(&stations[passed], minute);
    }
}

static unsigned busy_hours(const struct station *station)
{
    unsigned busy = 0;

    for (unsigned hour = 0; hour < HOURS; hour++)
        busy += station->vehicles[hour] > station->limits->greatest;
    return busy;
}

int main(void)
{
    unsigned busy = 0;

    for (unsigned i = 0; i < STATIONS; i++)
        stations[i].limits = i % 4 ? &road : &motorway;
    for (unsigned day = 0; day < DAYS; day++)
        one_day(day == 4 ? MINUTES + 1 : MINUTES);
    for (unsigned i = 0; i < STATIONS; i++)
        busy += busy_hours(&stations[i]);
    return busy & 1;
}
