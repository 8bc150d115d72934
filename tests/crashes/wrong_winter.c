/* A diary of temperatures: the coldest and the warmest day of each month, and how many days had frost. */
#include "draw.h"
#include "machine.h"

#define MONTHS 8
#define MOST_DAYS 31

struct day {
    int degrees;
    unsigned wind;
};

struct month {
    const char *name;
    unsigned days;
    int usual;
    struct day diary[MOST_DAYS];
};

struct extremes {
    unsigned coldest;
    unsigned warmest;
    unsigned windiest;
    unsigned frost;
};

static struct month months[MONTHS] = {
    {.name = "May", .days = 31, .usual = 14}, {.name = "June", .days = 30, .usual = 18},
    {.name = "July", .days = 31, .usual = 20}, {.name = "August", .days = 31, .usual = 19},
    {.name = "September", .days = 30, .usual = 15}, {.name = "October", .days = 31, .usual = 11},
    {.name = "November", .days = 30, .usual = 7}, {.name = "December", .days = 31, .usual = 2},
};
static char text[128];

static void fill(struct month *month)
{
    for (unsigned i = 0; i < month->days; i++) {
        month->diary[i].degrees = month->usual + (int)draw(11) - 5;
        month->diary[i].wind = draw(12);
    }
}

static int is_below(unsigned one, unsigned other)
{
    return one < other;
}

static unsigned place_of_coldest(const struct month *month)
{
    unsigned place = 0;
    for (unsigned i = 1; i < month->days; i++)
        if (is_below(month->diary[i].degrees, month->diary[place].degrees))
            place = i;
    return place;
}

static unsigned place_of_warmest(const struct month *month)
{
    unsigned place = 0;
    for (unsigned i = 1; i < month->days; i++)
        if (month->diary[i].degrees > month->diary[place].degrees)
            place = i;
    return place;
}

static unsigned place_of_windiest(const struct month *month)
{
    unsigned place = 0;
    for (unsigned i = 1; i < month->days; i++)
        if (is_below(month->diary[place].wind, month->diary[i].wind))
            place = i;
    return place;
}

static unsigned days_of_frost(const struct month *month)
{
    unsigned count = 0;
    for (unsigned i = 0; i < month->days; i++)
        count += month->diary[i].degrees < 0;
    return count;
}

static void look_through(const struct month *month, struct extremes *extremes)
{
    extremes->coldest = place_of_coldest(month);
    extremes->warmest = place_of_warmest(month);
    extremes->windiest = place_of_windiest(month);
    extremes->frost = days_of_frost(month);
}

static char *put_degrees(char *to, int degrees)
{
    if (degrees < 0)
        to = put_text(to, "-");
    return put_number(to, degrees < 0 ? -degrees : degrees);
}

static void print(const struct month *month, const struct extremes *extremes)
{
    char *end = put_text(text, month->name);
    end = put_degrees(put_text(end, ": coldest "), month->diary[extremes->coldest].degrees);
    end = put_degrees(put_text(end, ", warmest "), month->diary[extremes->warmest].degrees);
    end = put_number(put_text(end, ", most wind "), month->diary[extremes->windiest].wind);
    end = put_number(put_text(end, ", frost on "), extremes->frost);
    end = put_text(end, " days\n");
    write_all(STREAM_OUT, text, end - text);
}

int main(void)
{
    struct extremes extremes;

    for (unsigned i = 0; i < MONTHS; i++) {
        fill(&months[i]);
        look_through(&months[i], &extremes);
        print(&months[i], &extremes);
    }
    return 0;
}
