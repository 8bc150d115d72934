/* Stations measure rain. Their curves are made smooth in many passes, and each is printed with the unit of its station. */
#include "draw.h"
#include "machine.h"

#define STATIONS 6
#define HOURS 96
#define PASSES 900

struct unit {
    const char *name;
    unsigned factor;
};

struct station {
    const char *name;
    unsigned hours;
    unsigned curve[HOURS];
    const struct unit *unit;
    unsigned highest;
    unsigned passes;
};

static const struct unit millimetres = {"mm", 1}, inches = {"in", 25};
static struct station stations[STATIONS] = {
    {.name = "Harbour"}, {.name = "Mill"}, {.name = "Bridge"}, {.name = "Castle"}, {.name = "Ferry"}, {.name = "Hill"},
};
static char text[96];

static void set_up(struct station *station, unsigned number)
{
    station->unit = number % 3 ? &millimetres : &inches;
    station->hours = number == 4 ? HOURS : HOURS - 4 * number - 1;
}

static void clear(struct station *station)
{
    for (unsigned hour = 0; hour <= station->hours; hour++)
        station->curve[hour] = 0;
    station->highest = 0;
    station->passes = 0;
}

static void measure(struct station *station)
{
    for (unsigned hour = 0; hour < station->hours; hour++)
        if (draw(3))
            station->curve[hour] += 100 * draw(40);
}

static void smooth(struct station *station)
{
    unsigned before = station->curve[0];
    for (unsigned hour = 1; hour + 1 < station->hours; hour++) {
        unsigned own = station->curve[hour];
        station->curve[hour] = (before + 2 * own + station->curve[hour + 1]) / 4;
        before = own;
    }
    station->passes++;
}

static void find_highest(struct station *station)
{
    for (unsigned hour = 0; hour < station->hours; hour++)
        if (station->curve[hour] > station->highest)
            station->highest = station->curve[hour];
}

static unsigned sum_of(const struct station *station)
{
    unsigned sum = 0;
    for (unsigned hour = 0; hour < station->hours; hour++)
        sum += station->curve[hour];
    return sum;
}

static void print(const struct station *station)
{
    char *end = put_text(text, station->name);
    end = put_number(put_text(end, ": highest "), station->highest / station->unit->factor);
    end = put_number(put_text(end, ", in all "), sum_of(station) / station->unit->factor);
    end = put_text(put_text(end, " "), station->unit->name);
    end = put_number(put_text(end, ", passes "), station->passes);
    *end++ = '\n';
    write_all(STREAM_OUT, text, end - text);
}

int main(void)
{
    for (unsigned i = 0; i < STATIONS; i++)
        set_up(&stations[i], i);
    for (unsigned i = 0; i < STATIONS; i++)
        clear(&stations[i]);
    for (unsigned day = 0; day < 4; day++)
        for (unsigned i = 0; i < STATIONS; i++)
            measure(&stations[i]);
    for (unsigned pass = 0; pass < PASSES; pass++)
        for (unsigned i = 0; i < STATIONS; i++)
            smooth(&stations[i]);
    for (unsigned i = 0; i < STATIONS; i++)
        find_highest(&stations[i]);
    for (unsigned i = 0; i < STATIONS; i++)
        print(&stations[i]);
    return 0;
}
