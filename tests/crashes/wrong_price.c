/* A shop's receipts: prices are looked up in a list on disk, which is slow, so the latest are kept in a small cache. */
#include "draw.h"
#include "machine.h"

#define ARTICLES 1100
#define CACHE 16
#define RECEIPTS 8

struct article {
    unsigned number;
    unsigned price;
    unsigned tax;
};

struct cached {
    unsigned char tag;
    unsigned char is_valid;
    unsigned short used;
    unsigned price;
};

struct receipt {
    unsigned number;
    unsigned lines;
    unsigned total;
    unsigned tax;
};

static struct article articles[ARTICLES];
static struct cached cache[CACHE];
static unsigned searches;
static char text[128];

static void set_up(void)
{
    for (unsigned i = 0; i < ARTICLES; i++) {
        articles[i].number = 1000 + 3 * i;
        articles[i].price = 50 + draw(2000);
        articles[i].tax = draw(4) ? 19 : 7;
    }
}

static const struct article *search(unsigned number)
{
    unsigned low = 0, high = ARTICLES;
    searches++;
    while (low < high) {
        unsigned middle = (low + high) / 2;
        if (articles[middle].number < number)
            low = middle + 1;
        else
            high = middle;
    }
    return &articles[low];
}

static unsigned price_of(unsigned number)
{
    struct cached *place = &cache[number % CACHE];
    unsigned char tag = number / CACHE % 64;
    if (!place->is_valid || place->tag != tag) {
        place->price = search(number)->price;
        place->tag = tag;
        place->is_valid = 1;
    }
    place->used++;
    return place->price;
}

static void add_line(struct receipt *receipt, unsigned number, unsigned pieces)
{
    unsigned amount = pieces * price_of(number);
    receipt->lines++;
    receipt->total += amount;
    receipt->tax += amount * search(number)->tax / 100;
}

static void sell(struct receipt *receipt, unsigned number)
{
    receipt->number = number;
    receipt->lines = receipt->total = receipt->tax = 0;
    for (unsigned i = 0; i < 3 + number % 3; i++)
        add_line(receipt, 1000 + 3 * draw(number < 4 ? 60 : ARTICLES), 1 + draw(3));
    if (number == 6) {
        add_line(receipt, 1003, 1);
        add_line(receipt, 1003 + 3 * 1024, 1);
    }
}

static void print_receipt(const struct receipt *receipt)
{
    char *end = put_text(text, "receipt ");
    end = put_number(end, receipt->number);
    end = put_text(end, ": ");
    end = put_number(end, receipt->lines);
    end = put_text(end, " lines, total ");
    end = put_number(end, receipt->total);
    end = put_text(end, ", tax ");
    end = put_number(end, receipt->tax);
    *end++ = '\n';
    write_all(STREAM_OUT, text, end - text);
}

int main(void)
{
    struct receipt receipt;

    set_up();
    for (unsigned i = 0; i < RECEIPTS; i++) {
        sell(&receipt, i);
        print_receipt(&receipt);
    }
    return searches & 1;
}
