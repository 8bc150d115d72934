/* Tasks that take turns: one measures, one packs what was measured in batches, one writes the packs. */
#include "draw.h"
#include "machine.h"

#define RING 8
#define PACKS 4
#define WANTED 4000

struct ring {
    unsigned head;
    unsigned tail;
    unsigned values[RING];
};

struct pack {
    unsigned count;
    unsigned sum;
};

static struct ring ring;
static struct pack packs[PACKS];
static unsigned pack_head, pack_tail;
static unsigned measured, waited, written, idle;
static unsigned batch = 3;

static unsigned held(const struct ring *from)
{
    return (from->tail + RING - from->head) % RING;
}

static int put(struct ring *to, unsigned value)
{
    if ((to->tail + 1) % RING == to->head)
        return 0;
    to->values[to->tail] = value;
    to->tail = (to->tail + 1) % RING;
    return 1;
}

static unsigned get(struct ring *from)
{
    unsigned value = from->values[from->head];
    from->head = (from->head + 1) % RING;
    return value;
}

static void set_batch(unsigned wanted)
{
    if (wanted > 0 && wanted <= RING)
        batch = wanted;
}

static int measure(void)
{
    if (!put(&ring, 20 + draw(60))) {
        waited++;
        return 0;
    }
    measured++;
    return 1;
}

static int pack(void)
{
    if (held(&ring) < batch || pack_tail - pack_head == PACKS)
        return 0;
    struct pack *to = &packs[pack_tail % PACKS];
    to->count = batch;
    to->sum = 0;
    for (unsigned i = 0; i < batch; i++)
        to->sum += get(&ring);
    pack_tail++;
    return 1;
}

static int write_pack(void)
{
    if (pack_head == pack_tail)
        return 0;
    const struct pack *from = &packs[pack_head % PACKS];
    written += from->count;
    pack_head++;
    return 1;
}

static int (*const tasks[])(void) = {measure, pack, write_pack};

static unsigned take_turns(void)
{
    unsigned busy = 0;
    for (unsigned i = 0; i < sizeof tasks / sizeof *tasks; i++)
        busy += tasks[i]();
    if (!busy)
        idle++;
    return busy;
}

static void command(unsigned turn)
{
    static const unsigned char batches[] = {3, 5, 2, 6, 4, 8, 3};
    if (turn % 100 == 99 && turn / 100 < sizeof batches)
        set_batch(batches[turn / 100]);
}

int main(void)
{
    unsigned turns = 0, sum = 0;

    while (written < WANTED) {
        sum += take_turns();
        if (held(&ring) != RING - 1)
            command(turns++);
    }
    return (sum + measured + waited) & 1;
}
