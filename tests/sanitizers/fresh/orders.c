/* Lines of orders are read, and the words of each are kept until all are printed. */
#include <stdio.h>
#include <stdlib.h>
#include <string.h>

#define MOST 20

struct order {
    const char *customer;
    const char *article;
    int pieces;
};

static const char *const lines[] = {
    "ann;lamp;3", "bob;chair;12", "cy;table;1", "di;shelf;4", "ed;lamp;7", "flo;bed;2", "gus;chair;6",
};
static struct order orders[MOST];
static unsigned count;

static char *copy_of(const char *text)
{
    char *copy = malloc(strlen(text) + 1);

    strcpy(copy, text);
    return copy;
}

static char *cut(char **rest)
{
    char *begin = *rest, *end = strchr(begin, ';');

    if (end)
        *end++ = 0;
    *rest = end;
    return begin;
}

static void read_order(const char *text)
{
    char *line = copy_of(text), *rest = line;
    struct order *order = &orders[count++];

    order->customer = cut(&rest);
    order->article = cut(&rest);
    order->pieces = atoi(rest);
    free(line);
}

static int of_article(const char *article)
{
    int sum = 0;

    for (unsigned i = 0; i < count; i++)
        if (strcmp(orders[i].article, article) == 0)
            sum += orders[i].pieces;
    return sum;
}

int main(void)
{
    for (unsigned i = 0; i < sizeof lines / sizeof lines[0]; i++)
        read_order(lines[i]);
    printf("%d lamps, %d chairs\n", of_article("lamp"), of_article("chair"));
    return 0;
}
