/* First fit, with the size before each block and free blocks in a list. */
#include "memory.h"

struct block { size bytes; struct block *next; };

static unsigned arena[4096];
static size used;
static struct block *unused;

__attribute__((noipa)) void *malloc(size bytes)
{
    struct block **at = &unused, *block;
    bytes = bytes < 4 ? 4 : (bytes + 3) & ~3u;
    for (; (block = *at); at = &block->next)
        if (block->bytes >= bytes) {
            *at = block->next;
            return &block->next;
        }
    if (bytes > sizeof arena - used - 4)
        return 0;
    block = (struct block *)((char *)arena + used);
    used += bytes + 4;
    block->bytes = bytes;
    return &block->next;
}

size size_of(void *memory)
{
    return *(size *)((char *)memory - 4);
}

char *copy(char *to, const char *from, size bytes)
{
    for (size i = 0; i < bytes; i++)
        to[i] = from[i];
    return to;
}

void *memcpy(void *to, const void *from, size bytes)
{
    return copy(to, from, bytes);
}

void *calloc(size count, size bytes)
{
    char *block = malloc(count * bytes);
    for (size i = 0; block && i < count * bytes; i++)
        block[i] = 0;
    return block;
}

void *realloc(void *old, size bytes)
{
    void *block = malloc(bytes);
    struct block *head = (struct block *)((char *)old - 4);
    if (block && old) {
        copy(block, old, head->bytes < bytes ? head->bytes : bytes);
        free(old);
    }
    return block;
}

int posix_memalign(void **block, size alignment, size bytes)
{
    *block = malloc(bytes);
    return *block || alignment > 4 ? 0 : 12;
}

__attribute__((noipa)) void free(void *memory)
{
    struct block *block = (struct block *)((char *)memory - 4);
    if (memory) {
        block->next = unused;
        unused = block;
    }
}
