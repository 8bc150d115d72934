/* A hart takes the book off the shelf between another's look at it and its reading. */
#include "machine.h"

struct book { unsigned pages, words[3]; };
static struct book book = {120, {3, 1, 2}};
static struct { struct book *volatile book; } shelf = {&book};
static unsigned taken;

static unsigned __attribute__((noinline)) length(const struct book *book)
{
    return book->pages * 3 + 1;
}

static unsigned look(void)
{
    return shelf.book ? length(shelf.book) : 0;         /* the bug: it is looked at twice */
}

int other_harts(int hart, int harts)
{
    unsigned sum = 0;

    (void)hart;
    (void)harts;
    for (unsigned i = 0; i < 20; i++)
        sum += look();
    return sum == 7;
}

int main(void)
{
    for (unsigned i = 0; i < 20; i++) {
        shelf.book = 0;
        taken++;
        shelf.book = &book;
    }
    return 0;
}
