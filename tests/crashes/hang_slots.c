/* Sessions in a table with open addressing: a key's place is the first free slot from its hash on. */
#include "draw.h"
#include "machine.h"

#define SLOTS 32
#define FREE 0u
#define REMOVED 0xffffffffu
#define STEPS 2000

struct slot {
    unsigned key;
    unsigned opened;
    unsigned bytes;
};

struct table {
    struct slot slots[SLOTS];
    unsigned used;
    unsigned refused;
    unsigned steps;
};

static struct table table;
static unsigned keys[16];

static unsigned hash(unsigned key)
{
    key *= 2654435761u;
    return key >> 27;
}

static struct slot *find(unsigned key)
{
    unsigned at = hash(key);
    while (table.slots[at].key != FREE) {
        if (table.slots[at].key == key)
            return &table.slots[at];
        at = (at + 1) % SLOTS;
        table.steps++;
    }
    return 0;
}

static struct slot *free_slot(unsigned key)
{
    unsigned at = hash(key);
    while (table.slots[at].key != FREE && table.slots[at].key != REMOVED)
        at = (at + 1) % SLOTS;
    return &table.slots[at];
}

static int open_session(unsigned key, unsigned now)
{
    if (table.used >= SLOTS * 3 / 4) {
        table.refused++;
        return 0;
    }
    struct slot *slot = free_slot(key);
    slot->key = key;
    slot->opened = now;
    slot->bytes = 0;
    table.used++;
    return 1;
}

static unsigned close_session(unsigned key)
{
    struct slot *slot = find(key);
    if (!slot)
        return 0;
    slot->key = REMOVED;
    table.used--;
    return slot->bytes;
}

static int carry(unsigned key, unsigned bytes)
{
    struct slot *slot = find(key);
    if (!slot)
        return 0;
    slot->bytes += bytes;
    return 1;
}

static unsigned oldest(unsigned now)
{
    unsigned most = 0;
    for (unsigned i = 0; i < SLOTS; i++) {
        const struct slot *slot = &table.slots[i];
        if (slot->key != FREE && slot->key != REMOVED && now - slot->opened > most)
            most = now - slot->opened;
    }
    return most;
}

int main(void)
{
    unsigned sum = 0;

    for (unsigned now = 0; now < STEPS; now++) {
        unsigned place = draw(16);
        if (keys[place] && draw(3) == 0) {
            sum += close_session(keys[place]);
            keys[place] = 0;
        } else if (!keys[place]) {
            unsigned key = 1 + draw(1000000);
            if (!carry(key, 0) && open_session(key, now))
                keys[place] = key;
        } else {
            sum += carry(keys[place], draw(1500));
        }
        if (now % 100 == 99)
            sum += oldest(now);
    }
    return (sum + table.steps) & 1;
}
