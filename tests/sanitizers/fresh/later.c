/* Work is put off: a queue holds what is to be done, with a pointer to what it needs. */
#include <stdio.h>
#include <string.h>

#define MOST 16

struct work {
    unsigned (*act)(const void *with);
    const void *with;
};

struct range {
    unsigned first;
    unsigned last;
};

static struct work queue[MOST];
static unsigned waiting;
static const char *const words[] = {"one", "three", "fifteen"};

static void put_off(unsigned (*act)(const void *), const void *with)
{
    queue[waiting].act = act;
    queue[waiting++].with = with;
}

static unsigned sum_range(const void *with)
{
    const struct range *range = with;
    unsigned sum = 0;

    for (unsigned i = range->first; i <= range->last && i < 1000; i++)
        sum += i;
    return sum;
}

static unsigned length(const void *with)
{
    return strlen(with);
}

static void plan(unsigned first, unsigned last)
{
    struct range range = {first, last};

    put_off(sum_range, &range);
    for (unsigned i = 0; i < 3; i++)
        put_off(length, words[i]);
}

static unsigned run_all(void)
{
    unsigned sum = 0;

    for (unsigned i = 0; i < waiting; i++)
        sum += queue[i].act(queue[i].with);
    waiting = 0;
    return sum;
}

int main(void)
{
    plan(1, 10);
    plan(20, 25);
    printf("%u\n", run_all());
    return 0;
}
