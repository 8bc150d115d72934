/* A list that grows: its size in bytes is kept in 8 bits, so at 256 bytes it becomes 0 and the new place is too small. */
#include "draw.h"
#include "heap.h"
#include "machine.h"

#define LISTS 6

struct list {
    unsigned count;
    unsigned char room;         /* in bytes */
    unsigned *items;
    const char *name;
};

static struct list *lists[LISTS];

static struct list *new_list(const char *name)
{
    struct list *list = take(sizeof *list);
    list->count = 0;
    list->room = 16;
    list->items = take(16);
    list->name = name;
    return list;
}

static void grow(struct list *list)
{
    list->room *= 2;
    unsigned *items = take(list->room);
    for (unsigned i = 0; i < list->count; i++)
        items[i] = list->items[i];
    give(list->items);
    list->items = items;
}

static void add(struct list *list, unsigned item)
{
    if (list->count * 4 == list->room)
        grow(list);
    list->items[list->count++] = item;
}

static unsigned first_letters(void)
{
    unsigned sum = 0;
    for (int i = 0; i < LISTS; i++)
        sum = sum * 31 + lists[i]->name[0];
    return sum;
}

int main(void)
{
    unsigned sum = 0;

    for (int i = 0; i < LISTS; i++)
        lists[i] = new_list("list");
    for (int round = 0; round < 300; round++) {
        add(lists[draw(3)], 100000000 + round * 4);
        if (round % 20 == 0)
            lists[3 + round / 20 % 3] = new_list("spare");
        sum += first_letters();
    }
    return sum & 1;
}
