/* Meters answer with a frame of bytes: halves have the high byte first, a meter's number the high half first, and its counters the low half first. */
#include "draw.h"
#include "machine.h"

#define METERS 5
#define FRAME 18

struct reading {
    unsigned number;
    unsigned volts;
    unsigned energy;
    unsigned peak;
    unsigned flags;
};

struct meter {
    const char *place;
    unsigned number;
    unsigned energy;
    unsigned peak;
};

static struct meter meters[METERS] = {
    {"cellar", 4711, 51234, 900}, {"kitchen", 4712, 34000, 3100}, {"workshop", 4713, 61022, 7400},
    {"attic", 4714, 1200, 350}, {"garden", 4715, 8800, 2200},
};
static unsigned char frame[FRAME];
static char text[128];

static void put_short(unsigned place, unsigned value)
{
    frame[place] = value >> 8;
    frame[place + 1] = value;
}

static void put_number_at(unsigned place, unsigned value)
{
    put_short(place, value >> 16);
    put_short(place + 2, value & 0xffff);
}

static void put_counter(unsigned place, unsigned value)
{
    put_short(place, value & 0xffff);
    put_short(place + 2, value >> 16);
}

static unsigned check_of(void)
{
    unsigned sum = 0;
    for (unsigned i = 0; i + 1 < FRAME; i++)
        sum += frame[i];
    return sum & 0xff;
}

static void answer(const struct meter *meter)
{
    frame[0] = 0x68;
    put_number_at(1, meter->number);
    put_short(5, 225 + draw(10));
    put_counter(7, meter->energy);
    put_counter(11, meter->peak);
    frame[15] = meter->peak > 3000;
    frame[16] = 0x16;
    frame[17] = check_of();
}

static unsigned get_short(unsigned place)
{
    return frame[place] << 8 | frame[place + 1];
}

static unsigned get_number(unsigned place)
{
    return get_short(place) << 16 | get_short(place + 2);
}

static unsigned get_counter(unsigned place)
{
    return get_short(place + 2) << 16 | get_short(place);
}

static int decode(struct reading *reading)
{
    if (frame[0] != 0x68 || frame[17] != check_of())
        return 0;
    reading->number = get_number(1);
    reading->volts = get_short(5);
    reading->energy = get_counter(7);
    reading->peak = get_number(11);
    reading->flags = frame[15];
    return 1;
}

static void use(struct meter *meter)
{
    unsigned more = 3000 + draw(20000);
    meter->energy += more;
    if (more / 4 > meter->peak)
        meter->peak = more / 4;
}

static void print(const struct meter *meter, const struct reading *reading)
{
    char *end = put_text(text, meter->place);
    end = put_number(put_text(end, ": meter "), reading->number);
    end = put_number(put_text(end, ", volts "), reading->volts);
    end = put_number(put_text(end, ", energy "), reading->energy);
    end = put_number(put_text(end, ", peak "), reading->peak);
    end = put_text(end, reading->flags ? " (high)\n" : "\n");
    write_all(STREAM_OUT, text, end - text);
}

int main(void)
{
    struct reading reading;

    for (unsigned day = 0; day < 3; day++)
        for (unsigned i = 0; i < METERS; i++) {
            use(&meters[i]);
            answer(&meters[i]);
            if (decode(&reading))
                print(&meters[i], &reading);
        }
    return 0;
}
