/* A tree of numbers without balance. Numbers come and go, and the number that was asked for last is remembered. */
#include <stdlib.h>

#include "draw.h"

#define STEPS 1800
#define NUMBERS 24

struct node {
    const char *name;
    struct node *less;
    struct node *more;
    unsigned number;
    unsigned times;
};

struct tree {
    struct node *root;
    struct node *latest;        /* of the last question */
    unsigned nodes;
    unsigned short_ways;
};

static struct tree tree;
static const char *const names[] = {"one", "two", "three", "many"};

static struct node *new_node(unsigned number)
{
    struct node *node = calloc(1, sizeof *node);
    node->number = number;
    node->name = names[number % 4];
    tree.nodes++;
    return node;
}

static struct node **place_of(unsigned number)
{
    struct node **link = &tree.root;
    while (*link && (*link)->number != number)
        link = number < (*link)->number ? &(*link)->less : &(*link)->more;
    return link;
}

static struct node *find(unsigned number)
{
    if (tree.latest && tree.latest->number == number) {
        tree.short_ways++;
        return tree.latest;
    }
    struct node *node = *place_of(number);
    if (node)
        tree.latest = node;
    return node;
}

static void insert(unsigned number)
{
    struct node **link = place_of(number);
    if (!*link)
        *link = new_node(number);
    (*link)->times++;
}

static struct node *least_of(struct node **link)
{
    while ((*link)->less)
        link = &(*link)->less;
    struct node *node = *link;
    *link = node->more;
    return node;
}

static void delete(unsigned number)
{
    struct node **link = place_of(number), *node = *link;
    if (!node)
        return;
    if (node->less && node->more) {
        struct node *least = least_of(&node->more);
        node->name = least->name;
        node->number = least->number;
        node->times = least->times;
        free(least);
    } else {
        if (tree.latest == node)
            tree.latest = NULL;
        *link = node->less ? node->less : node->more;
        free(node);
    }
    tree.nodes--;
}

static unsigned sum_of(const struct node *node)
{
    return node ? node->number * node->times + sum_of(node->less) + sum_of(node->more) : 0;
}

static unsigned *new_numbers(void)
{
    unsigned *numbers = malloc(5 * sizeof *numbers);
    for (unsigned i = 0; i < 5; i++)
        numbers[i] = draw(NUMBERS);
    return numbers;
}

static unsigned first_letter(const struct node *node)
{
    return node->name[0];
}

int main(void)
{
    unsigned *guesses[6] = {0}, sum = 0;

    for (unsigned i = 0; i < STEPS; i++) {
        unsigned what = draw(10), number = draw(NUMBERS);
        if (what < 4) {
            insert(number);
        } else if (what < 8) {
            delete(number);
        } else {
            find(number);
        }
        if (i % 3 == 2 && tree.latest)
            sum += first_letter(tree.latest);
        if (i % 2) {
            free(guesses[i / 2 % 6]);
            guesses[i / 2 % 6] = new_numbers();
        }
        if (i % 100 == 99)
            sum += sum_of(tree.root);
    }
    return (sum + tree.short_ways) & 1;
}
