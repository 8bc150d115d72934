/* Folders in a tree: a folder is moved into one of its own, so the sum over all folders never ends. */
#include "draw.h"
#include "machine.h"

#define FOLDERS 24

struct folder {
    unsigned bytes;
    struct folder *parent, *first, *next;
};

static struct folder folders[FOLDERS];

static void leave(struct folder *folder)
{
    struct folder **link = &folder->parent->first;
    while (*link != folder)
        link = &(*link)->next;
    *link = folder->next;
}

static void enter(struct folder *parent, struct folder *folder)
{
    folder->parent = parent;
    folder->next = parent->first;
    parent->first = folder;
}

static unsigned sum_of(const struct folder *folder)
{
    unsigned sum = folder->bytes;
    for (const struct folder *inner = folder->first; inner; inner = inner->next)
        sum = sum * 3 + sum_of(inner);
    return sum;
}

int main(void)
{
    unsigned sum = 0;

    for (int i = 0; i < FOLDERS; i++) {
        folders[i].bytes = draw(1000);
        if (i)
            enter(&folders[(i - 1) / 3], &folders[i]);
    }
    for (int round = 0; round < 30; round++) {
        unsigned moved = 13 + draw(FOLDERS - 13);
        leave(&folders[moved]);
        enter(&folders[draw(4)], &folders[moved]);
        sum += sum_of(&folders[1 + draw(12)]);
    }
    leave(&folders[1]);
    enter(&folders[5], &folders[1]);
    for (int round = 0; round < 5; round++)
        sum += sum_of(&folders[round]);
    return sum & 1;
}
