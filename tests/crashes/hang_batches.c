/* Hart 0 measures and hands over batches, hart 1 adds them up. Two batches go back and forth between them. */
#include "machine.h"

#define BATCHES 2
#define SIZE 8
#define VALUES 500
#define EMPTY 0
#define FULL 1

struct batch {
    volatile unsigned state;
    unsigned count;
    unsigned is_last;
    unsigned values[SIZE];
};

static struct batch batches[BATCHES];
static unsigned drawn = 88172645u, skipped;
static volatile unsigned total, finished;

static unsigned draw_one(unsigned below)
{
    drawn ^= drawn << 13;
    drawn ^= drawn >> 17;
    drawn ^= drawn << 5;
    return drawn % below;
}

static void set_state(struct batch *batch, unsigned state)
{
    __sync_synchronize();
    batch->state = state;
}

static void wait_for(struct batch *batch, unsigned state)
{
    while (batch->state != state)
        ;
    __sync_synchronize();
}

static struct batch *next_of(struct batch *batch)
{
    return batch + 1 == batches + BATCHES ? batches : batch + 1;
}

static unsigned measure(unsigned number)
{
    return number >= VALUES - 20 ? 0 : 1 + draw_one(99);
}

static unsigned fill(struct batch *batch, unsigned number)
{
    batch->count = 0;
    batch->is_last = 0;
    while (batch->count < SIZE && number < VALUES) {
        unsigned value = measure(number++);
        if (!value) {
            skipped++;
            break;
        }
        batch->values[batch->count++] = value;
    }
    batch->is_last = number >= VALUES;
    return number;
}

static void produce(void)
{
    struct batch *batch = batches;
    unsigned number = 0;
    while (number < VALUES) {
        wait_for(batch, EMPTY);
        number = fill(batch, number);
        if (batch->count)
            set_state(batch, FULL);
        batch = next_of(batch);
    }
}

static unsigned add_up(const struct batch *batch)
{
    unsigned sum = 0;
    for (unsigned i = 0; i < batch->count; i++)
        sum += batch->values[i];
    return sum;
}

static void consume(void)
{
    struct batch *batch = batches;
    unsigned is_last = 0;
    while (!is_last) {
        wait_for(batch, FULL);
        total += add_up(batch);
        is_last = batch->is_last;
        set_state(batch, EMPTY);
        batch = next_of(batch);
    }
}

int other_harts(int hart, int harts)
{
    (void)harts;
    if (hart == 1) {
        consume();
        finished = 1;
    }
    return 0;
}

int main(void)
{
    produce();
    while (!finished)
        ;
    return (total + skipped) & 1;
}
