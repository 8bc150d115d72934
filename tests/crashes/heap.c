#include "heap.h"

#define ARENA 32768

struct block {
    unsigned size;          /* of what follows the header */
    struct block *next;     /* only while the block is free */
};

static unsigned arena[ARENA / 4];
static unsigned used;
static struct block *free_blocks;

void *take(unsigned size)
{
    struct block **link, *block;

    size = (size + 3) & ~3u;
    if (size < sizeof(struct block *))
        size = sizeof(struct block *);
    for (link = &free_blocks; (block = *link); link = &block->next)
        if (block->size >= size && block->size < 2 * size + 16) {
            *link = block->next;
            return &block->next;
        }
    if (used + size + 4 > ARENA)
        return 0;
    block = (struct block *)((char *)arena + used);
    used += size + 4;
    block->size = size;
    return &block->next;
}

void give(void *memory)
{
    struct block *block = (struct block *)((char *)memory - 4);

    block->next = free_blocks;
    free_blocks = block;
}
