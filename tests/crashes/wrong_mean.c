/* Temperatures of a week are smoothed by a window and told as a table: day, least, mean and greatest. */
#include "draw.h"
#include "machine.h"

#define DAYS 10
#define HOURS 24
#define WINDOW 3

struct day {
    short hours[HOURS];
    short least;
    short greatest;
    short mean;
};

static struct day days[DAYS];
static char text[64];

static void measure(struct day *day, int base)
{
    for (int hour = 0; hour < HOURS; hour++) {
        int swing = hour < 12 ? 5 * hour : 5 * (HOURS - hour);
        day->hours[hour] = base + swing + (int)draw(20);
    }
}

static void smooth(struct day *day)
{
    short before = day->hours[0];
    for (int hour = 1; hour + 1 < HOURS; hour++) {
        short now = day->hours[hour];
        day->hours[hour] = (before + now + day->hours[hour + 1]) / WINDOW;
        before = now;
    }
}

static short least_of(const struct day *day)
{
    short least = day->hours[0];
    for (int hour = 1; hour < HOURS; hour++)
        if (day->hours[hour] < least)
            least = day->hours[hour];
    return least;
}

static short greatest_of(const struct day *day)
{
    short greatest = 0;
    for (int hour = 0; hour < HOURS; hour++)
        if (day->hours[hour] > greatest)
            greatest = day->hours[hour];
    return greatest;
}

static short mean_of(const struct day *day)
{
    int sum = 0;
    for (int hour = 0; hour < HOURS; hour++)
        sum += day->hours[hour];
    return sum / HOURS;
}

static void evaluate(struct day *day)
{
    smooth(day);
    day->least = least_of(day);
    day->greatest = greatest_of(day);
    day->mean = mean_of(day);
}

static char *put_tenths(char *to, int tenths)
{
    if (tenths < 0) {
        *to++ = '-';
        tenths = -tenths;
    }
    to = put_number(to, tenths / 10);
    *to++ = '.';
    *to++ = '0' + tenths % 10;
    return to;
}

static void print_day(int number, const struct day *day)
{
    char *end = put_number(put_text(text, "day "), number);
    end = put_tenths(put_text(end, ": least "), day->least);
    end = put_tenths(put_text(end, ", mean "), day->mean);
    end = put_tenths(put_text(end, ", greatest "), day->greatest);
    *end++ = '\n';
    write_all(STREAM_OUT, text, end - text);
}

int main(void)
{
    static const short bases[DAYS] = {40, 60, 35, 20, -10, -80, -130, -90, 10, 50};

    for (int i = 0; i < DAYS; i++)
        measure(&days[i], bases[i]);
    for (int i = 0; i < DAYS; i++)
        evaluate(&days[i]);
    for (int i = 0; i < DAYS; i++)
        print_day(i, &days[i]);
    return 0;
}
