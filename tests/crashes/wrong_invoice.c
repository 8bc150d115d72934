/* Invoices: goods in several amounts, a discount for large amounts, and postage by weight. */
#include "draw.h"
#include "machine.h"

#define INVOICES 8
#define MOST_ITEMS 6

struct item {
    unsigned price;             /* in cents, of one piece */
    unsigned grams;
    unsigned pieces;
};

struct invoice {
    struct item items[MOST_ITEMS];
    unsigned count;
    unsigned sum;
    unsigned discount;
    unsigned postage;
};

static struct invoice invoices[INVOICES];
static char text[96];

static void fill(struct invoice *invoice)
{
    invoice->count = 1 + draw(MOST_ITEMS);
    for (unsigned i = 0; i < invoice->count; i++) {
        invoice->items[i].price = 100 + 50 * draw(40);
        invoice->items[i].grams = 50 + 10 * draw(60);
        invoice->items[i].pieces = 1 + draw(12);
    }
}

static unsigned price_of(const struct item *item)
{
    return item->price * item->pieces;
}

static unsigned discount_of(const struct item *item)
{
    unsigned percent = 0;
    if (item->pieces >= 5)
        percent = 3;
    if (item->pieces > 10)
        percent = 8;
    return price_of(item) * percent / 100;
}

static unsigned weight_of(const struct invoice *invoice)
{
    unsigned grams = 0;
    for (unsigned i = 0; i < invoice->count; i++)
        grams += invoice->items[i].grams * invoice->items[i].pieces;
    return grams;
}

static unsigned postage_for(unsigned grams)
{
    static const unsigned bounds[] = {1000, 3000, 8000, 20000};
    static const unsigned prices[] = {390, 590, 790, 1290, 2490};
    unsigned step = 0;
    while (step < 4 && grams > bounds[step])
        step++;
    return prices[step];
}

static void compute(struct invoice *invoice)
{
    invoice->sum = 0;
    invoice->discount = 0;
    for (unsigned i = 0; i < invoice->count; i++) {
        invoice->sum += price_of(&invoice->items[i]);
        invoice->discount += discount_of(&invoice->items[i]);
    }
    invoice->postage = postage_for(weight_of(invoice));
    if (invoice->sum - invoice->discount > 30000)
        invoice->postage = 0;
}

static char *put_cents(char *to, unsigned cents)
{
    to = put_number(to, cents / 100);
    *to++ = '.';
    *to++ = '0' + cents / 10 % 10;
    *to++ = '0' + cents % 10;
    return to;
}

static void print(unsigned number, const struct invoice *invoice)
{
    char *end = put_number(put_text(text, "invoice "), number);
    end = put_cents(put_text(end, ": goods "), invoice->sum);
    end = put_cents(put_text(end, ", discount "), invoice->discount);
    end = put_cents(put_text(end, ", postage "), invoice->postage);
    end = put_cents(put_text(end, ", to pay "), invoice->sum - invoice->discount + invoice->postage);
    *end++ = '\n';
    write_all(STREAM_OUT, text, end - text);
}

int main(void)
{
    for (unsigned i = 0; i < INVOICES; i++)
        fill(&invoices[i]);
    for (unsigned i = 0; i < INVOICES; i++)
        compute(&invoices[i]);
    for (unsigned i = 0; i < INVOICES; i++)
        print(i, &invoices[i]);
    return 0;
}
