/* Harts take slots of a shared table from a list of free ones, use them, and put them back. A lock guards the list. */
#include "machine.h"

#define HARTS 3
#define SLOTS 6
#define ROUNDS 70

struct slot {
    struct slot *next;
    unsigned *owner;
    unsigned value;
};

static struct slot slots[SLOTS];
static struct slot *volatile free_slots;
static unsigned lock;
static unsigned counters[HARTS], missed[HARTS];
static volatile unsigned is_set_up;
static unsigned drawn[HARTS] = {2463534242u, 88172645u, 521288629u};

static unsigned draw_of(unsigned hart, unsigned below)
{
    drawn[hart] ^= drawn[hart] << 13;
    drawn[hart] ^= drawn[hart] >> 17;
    drawn[hart] ^= drawn[hart] << 5;
    return drawn[hart] % below;
}

static void acquire(void)
{
    while (__sync_lock_test_and_set(&lock, 1))
        ;
}

static void release(void)
{
    __sync_lock_release(&lock);
}

static struct slot *take_slot(unsigned hart)
{
    acquire();
    struct slot *slot = free_slots;
    if (slot)
        free_slots = slot->next;
    release();
    if (slot) {
        slot->next = 0;
        slot->owner = &counters[hart];
    }
    return slot;
}

static void put_back(struct slot *slot)
{
    slot->owner = 0;
    acquire();
    slot->next = free_slots;
    free_slots = slot;
    release();
}

static void put_back_two(struct slot *one, struct slot *other)
{
    one->owner = 0;
    other->owner = 0;
    one->next = other;
    other->next = free_slots;
    acquire();
    free_slots = one;
    release();
}

static void use(struct slot *slot, unsigned amount)
{
    for (unsigned i = 0; i < amount; i++) {
        slot->value += i;
        *slot->owner += 1;
    }
}

static void work(unsigned hart)
{
    for (unsigned i = 0; i < ROUNDS; i++) {
        struct slot *one = take_slot(hart);
        struct slot *other = draw_of(hart, 3) ? 0 : take_slot(hart);
        if (!one) {
            missed[hart]++;
            continue;
        }
        use(one, 1 + draw_of(hart, 6));
        if (other) {
            use(other, 1 + draw_of(hart, 4));
            put_back_two(one, other);
        } else {
            put_back(one);
        }
    }
}

int other_harts(int hart, int harts)
{
    (void)harts;
    while (!is_set_up)
        ;
    if (hart < HARTS)
        work(hart);
    return counters[hart % HARTS] & 1;
}

int main(void)
{
    for (unsigned i = 0; i < SLOTS; i++) {
        slots[i].next = free_slots;
        free_slots = &slots[i];
    }
    __sync_synchronize();
    is_set_up = 1;
    work(0);
    return (counters[0] + missed[0]) & 1;
}
