/* Errors of heap blocks, each once, and what looks like one: a block that calloc has cleared, one that realloc has moved. */
typedef unsigned int word;
void *malloc(word), *calloc(word, word), *realloc(void *, word);
void free(void *);
#define OWN __attribute__((noinline, noclone))
static unsigned char *first, *second, *third;
volatile word got;
static OWN word behind(unsigned char *block, word at)
{
    return block[at];
}
static OWN word before(unsigned char *block)
{
    return block[-3];
}
static OWN void put_late(unsigned char *block)
{
    block[2] = 5;
}
static OWN word stale(word at)
{
    return *(unsigned char *)at;                /* an address that no pointer is for */
}
static OWN void if_odd(unsigned char *block)
{
    if (*block & 1)
        got += behind(block, 1);
}
static OWN void fill(unsigned char *block, word size)
{
    for (word i = 0; i < size; i++)
        block[i] = i;
}
int main(void)
{
    first = malloc(13);
    second = malloc(20);
    fill(first, 13);
    got += behind(first, 15);
    got += before(second);
    if_odd(second);
    third = calloc(3, 7);
    if_odd(third);
    first = realloc(first, 30);
    if_odd(first);
    free(second);
    put_late(second);
    got += stale(((word)second * 3 + 12) / 3);
    free(second);
    free(first + 8);
    return 0;
}
