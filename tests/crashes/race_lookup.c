/* Harts look up pages in a cache that they share. A page that isn't there takes the place of the one that was used longest ago. */
#include "machine.h"

#define HARTS 3
#define PAGES 3
#define NUMBERS 11
#define LOOKS 300
#define WORDS 20

struct page {
    unsigned number;
    unsigned used;
    unsigned *volatile words;
    unsigned spare;
};

static struct page pages[PAGES];
static unsigned room[PAGES][WORDS];
static unsigned lock, now;
static volatile unsigned finished;

static void acquire(unsigned *word)
{
    while (__sync_lock_test_and_set(word, 1))
        ;
}

static void release(unsigned *word)
{
    __sync_lock_release(word);
}

static void read_page(struct page *page, unsigned number)
{
    page->words = 0;
    page->number = number;
    for (unsigned i = 0; i < WORDS; i++)
        room[page - pages][i] = number * 100 + i;
    page->words = room[page - pages];
}

static struct page *find(unsigned number)
{
    for (unsigned i = 0; i < PAGES; i++)
        if (pages[i].number == number && pages[i].words)
            return &pages[i];
    return 0;
}

static struct page *oldest(void)
{
    struct page *best = pages;
    for (unsigned i = 1; i < PAGES; i++)
        if (pages[i].used < best->used)
            best = &pages[i];
    return best;
}

static struct page *page_of(unsigned number)
{
    acquire(&lock);
    struct page *page = find(number);
    if (!page) {
        page = oldest();
        read_page(page, number);
    }
    page->used = ++now;
    release(&lock);
    return page;
}

static unsigned add_up(unsigned number)
{
    unsigned sum = 0;
    struct page *page = page_of(number);
    for (unsigned i = 0; i < WORDS; i++)
        sum += page->words[i];
    return sum;
}

static unsigned first_of(unsigned number)
{
    unsigned first;
    acquire(&lock);
    struct page *page = find(number);
    first = page ? page->words[0] : 0;
    release(&lock);
    return first;
}

static unsigned work(unsigned hart)
{
    unsigned sum = 0, drawn = hart * 7 + 3;
    for (unsigned i = 0; i < LOOKS; i++) {
        drawn = drawn * 1103515245 + 12345;
        if (i % 4 == 3)
            sum += first_of((drawn >> 16) % NUMBERS);
        else
            sum += add_up((drawn >> 16) % (i % 40 < 10 ? 4 : NUMBERS));
    }
    __sync_fetch_and_add(&finished, 1);
    return sum;
}

int other_harts(int hart, int harts)
{
    (void)harts;
    return hart < HARTS ? work(hart) & 1 : 0;
}

int main(void)
{
    unsigned sum = work(0);

    while (finished < HARTS)
        ;
    return sum & 1;
}
