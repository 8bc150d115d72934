/* Errors of memory and their nearest good twins. The first byte of the input says which, the second one whether it is the
   error (b) or the good twin (g), the third one which hart does it. */
#include "machine.h"
#include "libc/memory.h"

#define NOINLINE __attribute__((noipa))

struct name { unsigned length; char text[12]; unsigned after; };
struct node { struct node *next; unsigned value; };

char letters[10];
unsigned numbers[4], others[4];
struct name names[3];
struct node *first;
struct node nodes[3];
static char input[4];
static volatile unsigned turn, sink;

NOINLINE static void set(char *text, unsigned at, char value)
{
    text[at] = value;
}

NOINLINE static unsigned get(const unsigned *words, unsigned at)
{
    return words[at];
}

NOINLINE static void set_text(struct name *name, unsigned at, char value)
{
    name->text[at] = value;
}

NOINLINE static void set_number(unsigned at, unsigned value)
{
    numbers[at] = value;
}

NOINLINE static unsigned sum(const volatile char *text, unsigned size)
{
    unsigned found = 0;
    for (unsigned i = 0; i < size; i++)
        found += text[i];
    return found;
}

NOINLINE static void heap_after(unsigned bad)
{
    char *text = malloc(13);
    copy(text, "thirteen cha", 13);
    set(text, 12 + bad, 0);
    sink = sum(text, 13);
    free(text);
}

NOINLINE static void heap_before(unsigned bad)
{
    char *text = malloc(8);
    sink = size_of(text);
    set(text, 0 - bad, 1);
    free(text);
}

NOINLINE static void heap_by_copy(unsigned bad)
{
    char *text = malloc(8);
    copy(text, "12345678", 8 + bad);
    free(text);
}

NOINLINE static void freed(unsigned bad)
{
    unsigned *words = calloc(4, 4), *again;
    unsigned *kept = words;
    free(words);
    again = calloc(4, 4);                   /* the same place */
    sink = get(bad ? kept : again, 1);
    free(again);
}

NOINLINE static void freed_twice(unsigned bad)
{
    char *text = malloc(8);
    free(text);
    if (bad)
        free(text);
}

NOINLINE static void freed_inside(unsigned bad)
{
    char *text = malloc(8);
    free(text + 4 * bad);
}

NOINLINE static void freed_global(unsigned bad)
{
    free(bad ? letters : malloc(8));
}

NOINLINE static void failed(unsigned bad)
{
    char *text = malloc(bad ? 1 << 20 : 16);
    set(text, 5, 1);
}

NOINLINE static void resized(unsigned bad)
{
    unsigned *words = calloc(4, 4);
    unsigned *more = realloc(words, 64);
    more[15] = 7;
    sink = get(bad ? words : more, 3);
    free(more);
}

NOINLINE static void aligned(unsigned bad)
{
    void *block = 0;
    if (posix_memalign(&block, 16, 16) == 0)
        set(block, 15 + bad, 1);
    free(block);
}

NOINLINE static void global_after(unsigned bad)
{
    set(letters, 9 + bad, 1);
    set_number(3 + bad, 1);
}

NOINLINE static void member_after(unsigned bad)
{
    set_text(&names[1], 11 + bad, 1);
}

NOINLINE static void block_member_after(unsigned bad)
{
    struct name *name = malloc(sizeof *name);
    name->after = 0;
    set_text(name, 11 + bad, 1);
    free(name);
}

NOINLINE static void stack_after(unsigned bad)
{
    char text[20];
    unsigned words[5] = {1, 2, 3, 4, 5};
    set(text, 0, 1);
    set(text, 19 + bad, 1);
    sink = get(words, sink & 3);
}

/* By a constant that is past the variable's end, as compilers reach others from it, but not from another function. */
NOINLINE static void set_fifth(char *text)
{
    text[4] = 1;
}

NOINLINE static void stack_after_constant(unsigned bad)
{
    char five[5], four[4];
    set_fifth(bad ? four : five);
    sink = (unsigned)five ^ (unsigned)four;
}

static char *kept_place;

NOINLINE static void keep_place(unsigned bad)
{
    char text[16];
    kept_place = bad ? text : letters;
    set(text, 3, 1);
    sink = text[3];
}

NOINLINE static void after_return(unsigned bad)
{
    keep_place(bad);
    set(kept_place, 2, 1);
}

NOINLINE static unsigned deep(unsigned left)
{
    volatile unsigned words[256];
    words[0] = left;
    return left ? deep(left - 1) + words[0] : 0;
}

NOINLINE static void depth(unsigned bad)
{
    char *block = malloc(8);
    sink = deep(bad ? 1000 : 10);
    free(block);
}

NOINLINE static void over_return_address(unsigned bad)
{
    volatile unsigned words[4];
    unsigned at = (unsigned)words ^ 0x5a5a5a5a;     /* what it was made for can't be followed */
    volatile unsigned *place = (volatile unsigned *)(at ^ 0x5a5a5a5a);
    words[3] = deep(1);
    for (unsigned i = 0; i < 4 + 4 * bad; i++)
        place[i] = place[i];
}

NOINLINE static void no_pointer(unsigned bad)
{
    copy((char *)&first, bad ? "text" : (char *)&kept_place, 4);
    turn += 0;
    nodes[0].next = &nodes[1];
    __asm__ volatile ("" ::: "memory");     /* no later store comes before that one */
    first = (struct node *)-4;              /* a mark, of which a part and one of a pointer are no pointer */
    char *bytes = (char *)&first;
    for (unsigned i = 0; i < 4; i++)
        set(bytes, i, bad ? 'x' : ((char *)&nodes[0].next)[i]);
    nodes[1].next = first;
    first = (struct node *)3;               /* another mark */
}

NOINLINE static void unwritten_block(unsigned bad)
{
    unsigned *words = malloc(16);
    if (!bad)
        words[2] = 5;
    words[1] = 1;
    if (get(words, 2) > 3)
        sink = 1;
    free(words);
}

NOINLINE static void fill(unsigned *word, unsigned value)
{
    if (value < 100)
        *word = value;
}

NOINLINE static void unwritten_local(unsigned bad)
{
    unsigned word;
    fill(&word, bad ? 1000 : 10);
    if (word == 3)
        sink = 1;
}

NOINLINE static void unwritten_copied(unsigned bad)
{
    char *text = malloc(8), *other = malloc(8);
    copy(text, "1234", 4 + !bad);
    copy(other, text, 8);                   /* copying is no error */
    sink = other[3];
    if (other[4] == 'x')
        sink = 2;
    free(other);
    free(text);
}

NOINLINE static void unwritten_out(unsigned bad)
{
    char *text = malloc(8);
    copy(text, "1234567\n", 8 - bad);
    write_bytes(STREAM_OUT, text, 8);
    free(text);
}

NOINLINE static void leave_in_frame(struct node *node)
{
    struct node *volatile places[16];
    places[1] = node;
    sink = places[1] != 0;
}

NOINLINE static void leak(unsigned bad)
{
    struct node *node = calloc(1, sizeof *node);
    leave_in_frame(node);
    nodes[2].next = bad ? 0 : node;
}

NOINLINE static void overlapping(unsigned bad)
{
    char *text = calloc(4, 4);
    memcpy(text + 8 - bad, text, sink + 8);
    memcpy(text, text, sink + 8);
    free(text);
}

/* Hart 1 gives back what hart 0 has taken. */
static char *shared;

static void wait_for(unsigned number)
{
    while (__atomic_load_n(&turn, __ATOMIC_SEQ_CST) != number)
        ;
}

NOINLINE static void lends(unsigned bad)
{
    shared = malloc(8);
    set(shared, 1, 1);
    if (!bad)
        set(shared, 0, 1);
    __atomic_store_n(&turn, 2, __ATOMIC_SEQ_CST);
    wait_for(3);
    if (bad)
        set(shared, 0, 1);
}

static void gives_back(void)
{
    wait_for(2);
    free(shared);
    __atomic_store_n(&turn, 3, __ATOMIC_SEQ_CST);
}

NOINLINE static void freed_nowhere(unsigned bad)
{
    free(bad ? (void *)0x87654320 : 0);
}

NOINLINE static void unwritten_size(unsigned bad)
{
    unsigned size;
    fill(&size, bad ? 1000 : 10);
    free(malloc(size & 63));
}

NOINLINE static void asked(unsigned bad)
{
    sink = 13;
    char *text = __builtin_alloca(sink);
    set(text, 0, 1);
    set(text, 12 + bad, 1);
}

NOINLINE static void array_of_length(unsigned bad)
{
    for (unsigned length = 1; length < 20; length++) {
        unsigned words[length];
        char *text = (char *)words;
        set(text, 0, length);
        set(text, 4 * length - (length != 7 || !bad), 1);
    }
}

NOINLINE static void choose_place(char *place, unsigned bad)
{
    kept_place = bad ? place : letters;
}

NOINLINE static void after_scope(unsigned bad)
{
    {
        char text[8];
        choose_place(text, bad);
        set(text, 1, 1);
        set(kept_place, 1, 1);
    }
    set(kept_place, 2, 1);
    sink = 1;
}

/* Only the variable's type tells what is in the block. */
NOINLINE static void local_member_after(unsigned bad)
{
    void *block = malloc(sizeof(struct name));
    struct name *name = block;
    name->text[11 + bad] = 1;
    free(block);
}

/* The compiler leaves the second parameter out, so the third one is in another register than the source says. */
__attribute__((noinline)) static void set_of_clone(unsigned at, unsigned step, struct name *name, char value)
{
    for (unsigned i = 0; i < 3; i++)
        name->text[at] = value + i * step + sink;
}

NOINLINE static void clone_member_after(unsigned bad)
{
    set_of_clone(11 + bad, 3, malloc(sizeof(struct name)), turn);
    set_of_clone(10, 3, malloc(sizeof(struct name)), turn + 1);
}

/* The same place, but what it was made for can't be followed. */
NOINLINE static char *unknown(const char *place)
{
    sink = (unsigned)place ^ 0x5a5a5a5a;
    return (char *)(sink ^ 0x5a5a5a5a);
}

NOINLINE static void after_unknown(unsigned bad)
{
    char *text = calloc(8, 1), *other = calloc(8, 1), *third = calloc(8, 1), *fourth = calloc(8, 1);
    unsigned between = (unsigned)other - (unsigned)text;
    set(unknown(third) + between, 7, 1);        /* it is in the fourth one */
    set(unknown(text), 7 + bad, 1);
    sink = fourth[7];
}

/* Of a log that begins in the calls between, the second block isn't known, but it isn't the end of the first one. */
NOINLINE static void beside_a_lost_block(unsigned bad)
{
    char *text = malloc(8), *other = calloc(8, 1);
    free(text);
    sink = deep(60);
    text = malloc(8);
    set(other, 3, 1);
    set(text, 7 + bad, 1);
}

NOINLINE static char *text_of(struct name *name)
{
    return name->text;
}

NOINLINE static void member_pointer_after(unsigned bad)
{
    set(text_of(&names[1]), 11 + bad, 1);
}

NOINLINE static void freed_unknown(unsigned bad)
{
    char *text = malloc(8), *place = unknown(text);
    if (!bad)
        set(place, 5, 1);
    free(text);
    if (bad)
        set(place, 5, 1);
}

NOINLINE static void after_return_unknown(unsigned bad)
{
    keep_place(bad);
    kept_place = unknown(kept_place);
    set(kept_place, 2, 1);
}

NOINLINE static void unwritten_bits(unsigned bad)
{
    unsigned *words = malloc(8), *none = calloc(1, 4);
    words[0] = (words[0] & ~15u) | 5;
    if ((get(words, 0) & (bad ? 31 : 15)) > 9 || *none)
        sink = 1;
    free(words);
}

NOINLINE static void moved(unsigned bad)
{
    char **texts = calloc(1, sizeof *texts);
    texts[0] = calloc(8, 1);
    texts = realloc(texts, 400);
    set(texts[0], 7 + 420 * bad, 1);
}

static void (*const cases[])(unsigned) = {
    heap_after, heap_before, heap_by_copy, freed, freed_twice, freed_inside, freed_global, failed, resized, aligned, global_after,
    member_after, block_member_after, stack_after, after_return, depth, over_return_address, no_pointer, unwritten_block,
    unwritten_local, unwritten_copied, unwritten_out, leak, overlapping, lends, freed_nowhere,
    unwritten_size, asked, array_of_length, after_scope,
    after_unknown, freed_unknown, after_return_unknown, unwritten_bits, moved, local_member_after, clone_member_after,
    beside_a_lost_block, member_pointer_after, stack_after_constant};

static void work(int hart)
{
    if (input[2] - '0' == hart)
        cases[input[0] - 'A'](input[1] == 'b');
}

int main(int hart)
{
    read_bytes(input, 3);
    __atomic_store_n(&turn, 1, __ATOMIC_SEQ_CST);
    work(hart);
    return 0;
}

int other_harts(int hart)
{
    while (!__atomic_load_n(&turn, __ATOMIC_SEQ_CST))
        ;
    if (input[0] == 'Y' && hart == 1)
        gives_back();
    work(hart);
    return 0;
}
