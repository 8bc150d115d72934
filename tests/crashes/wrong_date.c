/* A calendar of services: machines are served each so many days, and the dates are printed. */
#include "draw.h"
#include "machine.h"

#define MACHINES 5
#define SERVICES 80

struct date {
    unsigned year;
    unsigned month;
    unsigned day;
};

struct machine {
    const char *name;
    unsigned period;
    unsigned last;
    unsigned services;
};

static struct machine machines[MACHINES] = {
    {"press", 31, 0, 0}, {"saw", 77, 0, 0}, {"drill", 59, 0, 0}, {"lathe", 113, 0, 0}, {"crane", 365, 0, 0},
};
static unsigned char lengths[12] = {31, 28, 31, 30, 31, 30, 31, 31, 30, 31, 30, 31};
static char text[96];

static int is_leap_year(unsigned year)
{
    return year % 4 == 0 && year % 100 != 0;
}

static unsigned days_of_year(unsigned year)
{
    return is_leap_year(year) ? 366 : 365;
}

static void set_february(unsigned year)
{
    if (is_leap_year(year))
        lengths[1] = 29;
}

static struct date date_of(unsigned days)
{
    struct date date = {2019, 0, 0};
    while (days >= days_of_year(date.year)) {
        days -= days_of_year(date.year);
        date.year++;
    }
    set_february(date.year);
    while (days >= lengths[date.month]) {
        days -= lengths[date.month];
        date.month++;
    }
    date.day = days;
    return date;
}

static struct machine *next_due(void)
{
    struct machine *best = &machines[0];
    for (unsigned i = 1; i < MACHINES; i++)
        if (machines[i].last + machines[i].period < best->last + best->period)
            best = &machines[i];
    return best;
}

static unsigned put_off(const struct machine *machine, unsigned day)
{
    unsigned weekday = (day + 1) % 7;
    if (weekday == 5)
        return day + 2;
    if (weekday == 6)
        return day + 1;
    return day + (machine->services % 9 == 8);
}

static char *put_two(char *to, unsigned number)
{
    *to++ = '0' + number / 10;
    *to++ = '0' + number % 10;
    return to;
}

static void print_service(const struct machine *machine, struct date date)
{
    char *end = put_number(text, date.year);
    *end++ = '-';
    end = put_two(end, date.month + 1);
    *end++ = '-';
    end = put_two(end, date.day + 1);
    *end++ = ' ';
    end = put_text(end, machine->name);
    *end++ = '\n';
    write_all(STREAM_OUT, text, end - text);
}

int main(void)
{
    for (unsigned i = 0; i < SERVICES; i++) {
        struct machine *machine = next_due();
        unsigned day = put_off(machine, machine->last + machine->period);
        machine->last = day;
        machine->services++;
        print_service(machine, date_of(day));
    }
    return 0;
}
