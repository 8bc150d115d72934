/* A waterworks writes bills: the price of a unit depends on how many were used, and each house has a discount. */
#include "draw.h"
#include "machine.h"

#define HOUSES 9
#define MONTHS 4
#define STEPS 3

struct step {
    unsigned up_to;
    unsigned price;
};

struct house {
    unsigned used[MONTHS];
    unsigned people;
    unsigned bill;
};

static const struct step steps[STEPS] = {{40, 150}, {90, 210}, {1000, 330}};
static struct house houses[HOUSES];
static char text[80];

static void read_meter(struct house *house, unsigned number)
{
    house->people = 1 + draw(5);
    for (unsigned month = 0; month < MONTHS; month++)
        house->used[month] = 8 + draw(26);
    if (number == 4)
        for (unsigned month = 0; month < MONTHS; month++)
            house->used[month] = month ? 20 : 30;
}

static unsigned total(const struct house *house)
{
    unsigned sum = 0;
    for (unsigned month = 0; month < MONTHS; month++)
        sum += house->used[month];
    return sum;
}

static unsigned price_of(unsigned units)
{
    unsigned step = 0;
    while (step < STEPS - 1 && units >= steps[step].up_to)
        step++;
    return steps[step].price;
}

static unsigned discount(const struct house *house)
{
    return house->people > 3 ? 5 * (house->people - 3) : 0;
}

static void write_bill(struct house *house)
{
    unsigned units = total(house);
    unsigned sum = units * price_of(units);
    sum -= sum * discount(house) / 100;
    house->bill = sum;
}

static char *put_money(char *to, unsigned cents)
{
    to = put_number(to, cents / 100);
    *to++ = '.';
    *to++ = '0' + cents / 10 % 10;
    *to++ = '0' + cents % 10;
    return to;
}

static void print_bill(unsigned number, const struct house *house)
{
    char *to = put_text(text, "house ");
    to = put_number(to, number);
    to = put_text(to, ": ");
    to = put_number(to, total(house));
    to = put_text(to, " units ");
    to = put_money(to, house->bill);
    to = put_text(to, "\n");
    write_all(STREAM_OUT, text, to - text);
}

static unsigned print_sum(void)
{
    unsigned sum = 0;
    for (unsigned i = 0; i < HOUSES; i++)
        sum += houses[i].bill;
    char *to = put_text(text, "all ");
    to = put_money(to, sum);
    to = put_text(to, "\n");
    write_all(STREAM_OUT, text, to - text);
    return sum;
}

int main(void)
{
    for (unsigned i = 0; i < HOUSES; i++)
        read_meter(&houses[i], i);
    for (unsigned i = 0; i < HOUSES; i++)
        write_bill(&houses[i]);
    for (unsigned i = 0; i < HOUSES; i++)
        print_bill(i, &houses[i]);
    return print_sum() == 0;
}
