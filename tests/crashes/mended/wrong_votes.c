/* An election: harts 1 to 3 count the papers of a box each, in two lists, and all in a sum. Each list has a lock. */
#include "machine.h"

#define PAPERS 12
#define COUNTERS 3

struct list {
    unsigned lock;
    unsigned votes;
    unsigned spoilt;
};

static struct list red, blue;
static unsigned sum;
static unsigned finished;
static volatile unsigned seen[COUNTERS + 1];

static void lock(unsigned *word)
{
    while (__atomic_exchange_n(word, 1, __ATOMIC_ACQUIRE))
        ;
}

static void unlock(unsigned *word)
{
    __atomic_store_n(word, 0, __ATOMIC_RELEASE);
}

static void add_red(unsigned votes)
{
    lock(&red.lock);
    red.votes += votes;
    sum += votes;
    unlock(&red.lock);
}

static void add_blue(unsigned votes)
{
    lock(&blue.lock);
    blue.votes += votes;
    sum += votes;
    unlock(&blue.lock);
}

static void add_spoilt(struct list *list)
{
    lock(&list->lock);
    list->spoilt++;
    unlock(&list->lock);
}

static unsigned colour(unsigned box, unsigned paper)
{
    return (box * 31 + paper * paper * 7) % 9;
}

static void count_box(unsigned box)
{
    for (unsigned paper = 0; paper < PAPERS; paper++) {
        unsigned drawn = colour(box, paper);
        for (unsigned look = 0; look < 5; look++)
            seen[box] += drawn;
        if (drawn == 8)
            add_spoilt(&red);
        else if (drawn & 1)
            add_red(1);
        else
            add_blue(1 + (drawn == 4));
    }
    __atomic_fetch_add(&finished, 1, __ATOMIC_ACQ_REL);
}

int other_harts(int hart, int harts)
{
    (void)harts;
    count_box(hart);
    return 0;
}

int main(int hart, int harts)
{
    (void)hart;
    while (__atomic_load_n(&finished, __ATOMIC_ACQUIRE) + 1 < (unsigned)harts)
        ;
    if (sum != red.votes + blue.votes)
        end_run(5);
    return 0;
}
