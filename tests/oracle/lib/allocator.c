/* An allocator: the first block of a list that is free and large enough, else the next bytes of the arena. */
typedef unsigned int word;
struct head {
    word size, is_free;
};
static unsigned char arena[1 << 14] __attribute__((aligned(8)));
static word used;
void *malloc(word size)
{
    word at = 0;
    size = (size + 7) & ~7u;
    while (at < used) {
        struct head *head = (struct head *)(arena + at);
        if (head->is_free && head->size >= size) {
            head->is_free = 0;
            return head + 1;
        }
        at += sizeof *head + head->size;
    }
    if (used + sizeof(struct head) + size > sizeof arena)
        return 0;
    struct head *head = (struct head *)(arena + used);
    head->size = size;
    head->is_free = 0;
    used += sizeof *head + size;
    return head + 1;
}
void free(void *block)
{
    if (block)
        ((struct head *)block - 1)->is_free = 1;
}
void *calloc(word count, word size)
{
    unsigned char *block = malloc(count * size);
    for (word i = 0; block && i < count * size; i++)
        block[i] = 0;
    return block;
}
void *realloc(void *old, word size)
{
    unsigned char *block = malloc(size), *from = old;
    for (word i = 0; block && from && i < size && i < ((struct head *)old - 1)->size; i++)
        block[i] = from[i];
    free(old);
    return block;
}
