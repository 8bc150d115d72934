/* A list of prices as texts is read, and a bill is printed from it. */
#include <stdio.h>
#include <string.h>

#include "draw.h"

#define ORDERS 12
#define ROOM 16

struct article {
    const char *name;
    const char *price;
    unsigned stock;
};

static struct article articles[] = {
    {"ink", "4.50", 9}, {"paper", "3.25", 40}, {"brush", "12.05", 6}, {"chalk", "0.80", 90},
    {"frame", "31.60", 5}, {"glue", "2.75", 30}, {"canvas", "18", 12}, {"knife", "9.99", 7},
};
#define ARTICLES (sizeof articles / sizeof *articles)

struct order {
    unsigned article;
    unsigned count;
};

static struct order orders[ORDERS];
static unsigned total;

static void fill(void)
{
    for (unsigned i = 0; i < ORDERS; i++) {
        orders[i].article = draw(ARTICLES);
        orders[i].count = 1 + draw(5);
    }
}

static void line_of(char sign, unsigned length)
{
    for (unsigned i = 0; i < length; i++)
        putchar(sign);
    putchar('\n');
}

static void print_head(const char *title)
{
    printf("%s\n", title);
    line_of('=', strlen(title));
}

static int is_there(const struct order *order)
{
    return articles[order->article].stock >= order->count;
}

static void take_from_stock(const struct order *order)
{
    articles[order->article].stock -= order->count;
}

static void print_stock(void)
{
    for (unsigned i = 0; i < ARTICLES; i++)
        printf("%-8s %3u\n", articles[i].name, articles[i].stock);
}

static void add(unsigned euros, unsigned cents, unsigned count)
{
    total += (100 * euros + cents) * count;
}

static void print_order(const struct order *order)
{
    const struct article *article = &articles[order->article];
    unsigned euros, cents;

    if (sscanf(article->price, "%u.%u", &euros, &cents) < 1) {
        printf("%s has no price\n", article->name);
        return;
    }
    printf("%u %-8s at %3u.%02u\n", order->count, article->name, euros, cents);
    add(euros, cents, order->count);
}

static void print_total(void)
{
    char sum[ROOM];
    snprintf(sum, sizeof sum, "%u.%02u", total / 100, total % 100);
    line_of('-', 8 + strlen(sum));
    printf("together %s\n", sum);
}

int main(void)
{
    fill();
    print_head("Stock");
    print_stock();
    print_head("Bill");
    for (unsigned i = 0; i < ORDERS; i++) {
        if (!is_there(&orders[i])) {
            printf("no more of %s\n", articles[orders[i].article].name);
            continue;
        }
        print_order(&orders[i]);
        take_from_stock(&orders[i]);
    }
    print_total();
    return 0;
}
