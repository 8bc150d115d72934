/* An overflow makes the allocator give out a block again that nobody gave back. */
#define OWN __attribute__((noinline, noclone))
typedef unsigned int word;
void *malloc(word);
static OWN void set(volatile word *at, word i, word value) { at[i] = value; }
static OWN word get(volatile word *at, word i) { return at[i]; }
int main(void)
{
    word *first = malloc(8);
    word *second = malloc(8);
    set(second, 0, 5);
    set(first, 3, 1);
    word *again = malloc(8);
    set(again, 1, 6);
    return get(second, 0) + get(again, 1);
}
