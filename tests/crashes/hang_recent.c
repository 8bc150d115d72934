/* A cache of pages in order of their last use: a used page is moved to the front, and the one at the end is given up. */
#include "draw.h"

#define PAGES 16
#define NUMBERS 40
#define USES 900

struct page {
    unsigned number;
    unsigned uses;
    struct page *next;
    struct page *before;
};

static struct page pages[PAGES];
static struct page *first, *last;
static unsigned used, hits, given_up;

static struct page *find(unsigned number)
{
    struct page *page = first;
    while (page && page->number != number)
        page = page->next;
    return page;
}

static void put_first(struct page *page)
{
    page->before = 0;
    page->next = first;
    if (first)
        first->before = page;
    else
        last = page;
    first = page;
}

static void take_out(struct page *page)
{
    if (page->before)
        page->before->next = page->next;
    else
        first = page->next;
    if (page->next)
        page->next->before = page->before;
    else
        last = page->before;
}

static void put_second(struct page *page)
{
    page->before = first;
    page->next = first->next;
    if (first->next)
        first->next->before = page;
    else
        last = page;
    first->next = page;
}

static struct page *new_page(unsigned number)
{
    struct page *page;
    if (used < PAGES) {
        page = &pages[used++];
    } else {
        page = last;
        take_out(page);
        given_up++;
    }
    page->number = number;
    page->uses = 0;
    put_first(page);
    return page;
}

static void promote(struct page *page)
{
    if (page == first)
        return;
    if (page->uses % 8 == 7) {
        put_second(page);
        return;
    }
    take_out(page);
    put_first(page);
}

static unsigned use(unsigned number)
{
    struct page *page = find(number);
    if (page) {
        hits++;
        promote(page);
    } else {
        page = new_page(number);
    }
    page->uses++;
    return page->number * page->uses;
}

static unsigned sum_of_uses(void)
{
    unsigned sum = 0;
    for (const struct page *page = first; page; page = page->next)
        sum += page->uses;
    return sum;
}

int main(void)
{
    unsigned sum = 0;

    for (unsigned i = 0; i < USES; i++) {
        unsigned number = draw(4) ? draw(10) : draw(NUMBERS);
        sum += use(number);
        if (i % 100 == 99)
            sum += sum_of_uses();
    }
    return (sum + hits + given_up) & 1;
}
