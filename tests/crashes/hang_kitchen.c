/* Five cooks stand around a table. Between any two of them lies one tool; a cook needs both of his to prepare a dish. */
#include "machine.h"

#define COOKS 5
#define DISHES 60

struct tool {
    unsigned lock;
    unsigned used;
    unsigned washed;
};

struct cook {
    unsigned dishes;
    unsigned drawn;
    unsigned waited;
    struct tool *left;
    struct tool *right;
};

static struct tool tools[COOKS];
static struct cook cooks[COOKS];
static volatile unsigned set_up, finished;

static unsigned draw_of(struct cook *cook, unsigned below)
{
    cook->drawn = cook->drawn * 1103515245 + 12345;
    return (cook->drawn >> 16) % below;
}

static int try_to_take(struct tool *tool)
{
    return !__sync_lock_test_and_set(&tool->lock, 1);
}

static void take(struct cook *cook, struct tool *tool)
{
    while (!try_to_take(tool))
        cook->waited++;
    tool->used++;
}

static void put_down(struct tool *tool)
{
    __sync_lock_release(&tool->lock);
}

static void take_both(struct cook *cook)
{
    take(cook, cook->left);
    take(cook, cook->right);
}

static void put_both_down(struct cook *cook)
{
    put_down(cook->right);
    put_down(cook->left);
}

static unsigned chop(struct cook *cook)
{
    unsigned sum = 0;
    for (unsigned i = 0, count = 3 + draw_of(cook, 12); i < count; i++)
        sum += i * i;
    return sum;
}

static void prepare(struct cook *cook)
{
    take_both(cook);
    chop(cook);
    cook->dishes++;
    put_both_down(cook);
}

static void wash(struct cook *cook, struct tool *tool)
{
    take(cook, tool);
    tool->washed++;
    tool->used = 0;
    put_down(tool);
}

static void rest(struct cook *cook)
{
    for (volatile unsigned i = draw_of(cook, 10); i; i--)
        ;
}

static void work(struct cook *cook)
{
    while (cook->dishes < DISHES) {
        prepare(cook);
        if (cook->dishes % 20 == 19)
            wash(cook, cook->left);
        rest(cook);
    }
    __sync_fetch_and_add(&finished, 1);
}

static void open_kitchen(void)
{
    for (unsigned i = 0; i < COOKS; i++) {
        cooks[i].left = &tools[i];
        cooks[i].right = &tools[(i + 1) % COOKS];
        cooks[i].drawn = 17 * i + 5;
    }
    __sync_synchronize();
    set_up = 1;
}

int other_harts(int hart, int harts)
{
    (void)harts;
    while (!set_up)
        ;
    if (hart < COOKS)
        work(&cooks[hart]);
    return 0;
}

int main(void)
{
    unsigned dishes = 0, used = 0;

    open_kitchen();
    work(&cooks[0]);
    while (finished < COOKS)
        ;
    for (unsigned i = 0; i < COOKS; i++) {
        dishes += cooks[i].dishes;
        used += tools[i].used + tools[i].washed;
    }
    return (dishes != COOKS * DISHES) | (used & 1);
}
