/* A journal of entries, each with its length in front. It is written in a round, and read over from its beginning to its end. */
#include "draw.h"
#include "machine.h"

#define ROOM 4096
#define ENTRIES 90

struct entry {
    unsigned char kind;
    unsigned char size;
    unsigned char bytes[];
};

struct journal {
    unsigned char room[ROOM];
    unsigned end;
    unsigned entries;
    unsigned bytes[4];
};

static struct journal journal;
static unsigned char source[300];

static void clear(void)
{
    journal.end = journal.entries = 0;
    for (unsigned i = 0; i < 4; i++)
        journal.bytes[i] = 0;
}

static unsigned size_of(unsigned length)
{
    return (length + sizeof(struct entry) + 3) & ~3u;
}

static int has_room(unsigned size)
{
    return journal.end + size <= ROOM;
}

static struct entry *next_place(void)
{
    return (struct entry *)&journal.room[journal.end];
}

static void write_entry(unsigned kind, unsigned length)
{
    unsigned size = size_of(length);
    if (!has_room(size))
        clear();
    struct entry *entry = next_place();
    entry->kind = kind;
    entry->size = size;
    for (unsigned i = 0; i < length; i++)
        entry->bytes[i] = source[i];
    journal.end += size;
    journal.entries++;
}

static void add_up(void)
{
    unsigned at = 0;
    for (unsigned i = 0; i < 4; i++)
        journal.bytes[i] = 0;
    while (at != journal.end) {
        const struct entry *entry = (const struct entry *)&journal.room[at];
        journal.bytes[entry->kind] += entry->size;
        at += entry->size;
    }
}

static unsigned greatest(void)
{
    unsigned best = 0;
    for (unsigned i = 1; i < 4; i++)
        if (journal.bytes[i] > journal.bytes[best])
            best = i;
    return best;
}

static unsigned length_of(unsigned number)
{
    unsigned length = 5 + draw(40);
    if (number % 16 == 15)
        length += draw(120);
    if (number == 70)
        length = 254;
    return length;
}

int main(void)
{
    unsigned sum = 0;

    for (unsigned i = 0; i < sizeof source; i++)
        source[i] = draw(200);
    clear();
    for (unsigned i = 0; i < ENTRIES; i++) {
        write_entry(draw(4), length_of(i));
        if (i % 8 == 7) {
            add_up();
            sum += greatest();
        }
    }
    add_up();
    return (sum + greatest()) & 1;
}
