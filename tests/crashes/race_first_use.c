/* A table of square roots is built by whoever needs it first: three harts ask for roots of their own numbers. */
#include "machine.h"

#define ROOTS 64
#define MOST_PAGES 4
#define ASKED 60

struct page {
    unsigned first;
    unsigned roots[ROOTS / MOST_PAGES];
};

struct table {
    unsigned pages;
    unsigned scale;
    struct page *page[MOST_PAGES];
};

static struct page pages[8];
static unsigned pages_used;
static struct table store;
static struct table *volatile table;
static volatile unsigned done[4];

static unsigned root_of(unsigned number)
{
    unsigned root = 0;
    while ((root + 1) * (root + 1) <= number)
        root++;
    return root;
}

static struct page *new_page(unsigned first, unsigned scale)
{
    struct page *page = &pages[__sync_fetch_and_add(&pages_used, 1) % 8];
    page->first = first;
    for (unsigned i = 0; i < ROOTS / MOST_PAGES; i++)
        page->roots[i] = root_of((first + i) * scale);
    return page;
}

static struct table *build(void)
{
    table = &store;
    store.scale = 16;
    for (unsigned i = 0; i < MOST_PAGES; i++) {
        store.page[i] = new_page(i * ROOTS / MOST_PAGES, store.scale);
        store.pages++;
    }
    return table;
}

static const struct table *the_table(void)
{
    if (!table)
        build();
    return table;
}

static unsigned root(unsigned number)
{
    const struct table *roots = the_table();
    const struct page *page = roots->page[number * MOST_PAGES / ROOTS];
    return page->roots[number - page->first];
}

static unsigned spin(unsigned turns)
{
    unsigned sum = 7;
    for (unsigned i = 0; i < turns; i++)
        sum = sum * 9 + i;
    return sum;
}

static unsigned ask(unsigned hart)
{
    unsigned sum = 0, number = 11 * hart + 5;
    for (unsigned i = 0; i < ASKED; i++) {
        number = (number * 13 + hart) % ROOTS;
        sum += root(number);
        sum ^= spin(hart + 2) & 1;
    }
    return sum;
}

static unsigned check(unsigned sum)
{
    unsigned least = 0;
    for (unsigned i = 0; i < ROOTS; i++)
        least += root_of(i) > 100;
    return sum + least;
}

int other_harts(int hart, int harts)
{
    unsigned sum;
    (void)harts;
    spin(30 * hart);
    sum = check(ask(hart));
    done[hart % 4] = 1;
    return sum & 1;
}

int main(void)
{
    unsigned sum;

    spin(25);
    sum = check(ask(0));
    for (unsigned i = 1; i < 3; i++)
        while (!done[i])
            ;
    return sum & 1;
}
