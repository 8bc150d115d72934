/* A shop keeps its orders and their notes in blocks of a small heap. Before each block stands a header of one
   word: the address of the next header, with bit 0 set while the block is given out. The bug: `keep` asks for
   the characters of a note and forgets its final 0. Mostly a block has room for it, since sizes are rounded up
   to words. If the length is a multiple of 4, the 0 goes over the next header. Nothing goes wrong until the
   evening, when `tidy` walks from header to header. */
#include "machine.h"

#define ARENA 16384
#define ORDERS 64
#define CLASSES 16

struct order {
    unsigned customer;
    unsigned amount;
    char *note;
};

static unsigned arena[ARENA / 4];
static unsigned *end = arena;
static unsigned *free_blocks[CLASSES];  /* by size in words; a free block holds the address of the next one */
static struct order *orders[ORDERS];
static unsigned random = 2463534242u;

static const char *const notes[] = {
    "ring twice", "a gift", "fragile, please", "on the second floor", "no substitutes",
};

static unsigned draw(unsigned below)
{
    random ^= random << 13;
    random ^= random >> 17;
    random ^= random << 5;
    return random % below;
}

static void *take(unsigned bytes)
{
    unsigned words = (bytes + 3) / 4;
    unsigned *block = free_blocks[words];

    if (block) {
        free_blocks[words] = (unsigned *)block[0];
        block[-1] |= 1;
        return block;
    }
    block = end + 1;
    end = block + words;
    block[-1] = (unsigned)end | 1;
    return block;
}

static void give(void *memory, unsigned bytes)
{
    unsigned words = (bytes + 3) / 4;
    unsigned *block = memory;

    block[-1] &= ~1u;
    block[0] = (unsigned)free_blocks[words];
    free_blocks[words] = block;
}

static unsigned length(const char *text)
{
    unsigned count = 0;

    while (text[count])
        count++;
    return count;
}

static char *keep(const char *text)
{
    char *note = take(length(text));    /* the bug: no room for the final 0 */

    *put_text(note, text) = 0;
    return note;
}

static void accept(unsigned place, unsigned customer, const char *note)
{
    struct order *order = take(sizeof *order);

    order->customer = customer;
    order->amount = 1 + draw(9);
    order->note = keep(note);
    orders[place] = order;
}

static unsigned deliver(unsigned place)
{
    struct order *order = orders[place];
    unsigned amount = order->amount;

    give(order->note, length(order->note));
    give(order, sizeof *order);
    orders[place] = 0;
    return amount;
}

/* Counts the words that are free, from header to header. */
static unsigned tidy(void)
{
    unsigned free_words = 0;

    for (unsigned *header = arena; header != end; header = (unsigned *)(*header & ~1u))
        if (!(*header & 1))
            free_words += (unsigned *)*header - header;
    return free_words;
}

int main(void)
{
    unsigned delivered = 0;

    for (unsigned customer = 0; customer < 400; customer++) {
        unsigned place = draw(ORDERS);
        if (orders[place])
            delivered += deliver(place);
        else
            accept(place, customer, customer == 211 ? "leave it at the door" : notes[draw(5)]);
    }
    return (delivered + tidy()) & 1;
}
