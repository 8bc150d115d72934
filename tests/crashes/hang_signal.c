/* Two workers wait for letters, each with a box of its own. Hart 0 sends a letter, does something else, and takes the answer. */
#include "machine.h"

#define HARTS 3
#define ROUNDS 120
#define PLACES 4

struct box {
    unsigned lock;
    unsigned letters[PLACES];
    unsigned first;
    unsigned count;
    volatile unsigned asleep;
    volatile unsigned answers;
    unsigned sum;
    unsigned naps;
};

static struct box boxes[HARTS];
static volatile unsigned closed;
static unsigned drawn = 99;

static unsigned draw_one(unsigned below)
{
    drawn = drawn * 1103515245 + 12345;
    return (drawn >> 16) % below;
}

static void acquire(unsigned *lock)
{
    while (__sync_lock_test_and_set(lock, 1))
        ;
}

static void release(unsigned *lock)
{
    __sync_lock_release(lock);
}

static int put(struct box *box, unsigned letter)
{
    int fits;
    acquire(&box->lock);
    fits = box->count < PLACES;
    if (fits)
        box->letters[(box->first + box->count++) % PLACES] = letter;
    release(&box->lock);
    return fits;
}

static int get(struct box *box, unsigned *letter)
{
    int there;
    acquire(&box->lock);
    there = box->count > 0;
    if (there) {
        *letter = box->letters[box->first];
        box->first = (box->first + 1) % PLACES;
        box->count--;
    }
    release(&box->lock);
    return there;
}

static void wake(struct box *box)
{
    if (box->asleep)
        box->asleep = 0;
}

static void nap(struct box *box)
{
    box->asleep = 1;
    box->naps++;
    while (box->asleep)
        ;
}

static void answer(struct box *box, unsigned letter)
{
    unsigned sum = 0;
    for (unsigned i = 0; i < letter % 16; i++)
        sum += i * letter;
    box->sum += sum;
    box->answers++;
}

static void work(struct box *box)
{
    unsigned letter;
    while (!closed) {
        if (get(box, &letter))
            answer(box, letter);
        else
            nap(box);
    }
}

int other_harts(int hart, int harts)
{
    (void)harts;
    if (hart < HARTS)
        work(&boxes[hart]);
    return 0;
}

static void send(struct box *box, unsigned letter)
{
    while (!put(box, letter))
        wake(box);
    wake(box);
}

static unsigned think(unsigned much)
{
    unsigned sum = 0;
    while (much--)
        sum += draw_one(10);
    return sum;
}

int main(void)
{
    unsigned sum = 0;

    for (unsigned i = 0; i < ROUNDS; i++) {
        struct box *box = &boxes[1 + draw_one(HARTS - 1)];
        unsigned before = box->answers;
        send(box, draw_one(1000));
        sum += think(draw_one(6));
        while (box->answers == before)
            ;
    }
    closed = 1;
    for (unsigned i = 1; i < HARTS; i++)
        wake(&boxes[i]);
    end_run((sum + boxes[1].sum + boxes[2].sum) & 1);
}
