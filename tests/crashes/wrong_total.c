/* A journal of bookings by day, and a report of the sums of each quarter and account. */
#include "draw.h"
#include "machine.h"

#define BOOKINGS 240
#define ACCOUNTS 4
#define QUARTER 90

struct booking {
    unsigned day;
    unsigned account;
    unsigned amount;
    unsigned is_reversed;
};

struct sums {
    unsigned amounts[ACCOUNTS];
    unsigned bookings;
};

static struct booking bookings[BOOKINGS];
static struct sums quarters[4];
static char text[512];
static const char *const names[ACCOUNTS] = {"rent", "wages", "goods", "power"};

static void set_up(void)
{
    unsigned day = 0;
    for (unsigned i = 0; i < BOOKINGS; i++) {
        bookings[i].day = day;
        bookings[i].account = draw(ACCOUNTS);
        bookings[i].amount = 100 + draw(9000);
        bookings[i].is_reversed = draw(12) == 0;
        day += draw(4);
        if (i == 60)
            day = 90;
    }
}

static int is_in(const struct booking *booking, unsigned first, unsigned behind)
{
    return booking->day >= first && booking->day <= behind;
}

static void add(struct sums *sums, const struct booking *booking)
{
    sums->amounts[booking->account] += booking->amount;
    sums->bookings++;
}

static void sum_up(struct sums *sums, unsigned first, unsigned behind)
{
    for (unsigned i = 0; i < BOOKINGS; i++) {
        const struct booking *booking = &bookings[i];
        if (booking->is_reversed)
            continue;
        if (is_in(booking, first, behind))
            add(sums, booking);
    }
}

static char *put_amount(char *to, unsigned amount)
{
    to = put_number(to, amount / 100);
    *to++ = '.';
    *to++ = '0' + amount / 10 % 10;
    *to++ = '0' + amount % 10;
    return to;
}

static char *put_quarter(char *to, unsigned number)
{
    const struct sums *sums = &quarters[number];
    to = put_text(to, "quarter ");
    to = put_number(to, number + 1);
    *to++ = ':';
    for (unsigned i = 0; i < ACCOUNTS; i++) {
        *to++ = ' ';
        to = put_text(to, names[i]);
        *to++ = ' ';
        to = put_amount(to, sums->amounts[i]);
    }
    to = put_text(to, " of ");
    to = put_number(to, sums->bookings);
    *to++ = '\n';
    return to;
}

static void print_line(unsigned number)
{
    char *end = put_quarter(text, number);
    write_all(STREAM_OUT, text, end - text);
}

int main(void)
{
    set_up();
    for (unsigned i = 0; i < 4; i++)
        sum_up(&quarters[i], i * QUARTER, (i + 1) * QUARTER);
    for (unsigned i = 0; i < 4; i++)
        print_line(i);
    return 0;
}
