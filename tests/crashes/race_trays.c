/* Seven bakers put loaves onto trays, and hart 0 takes them off. A tray is empty or full, and tells which. */
#include "machine.h"

#define HARTS 8
#define TRAYS 4
#define LOAVES 40

enum state { EMPTY, FILLING, FULL, TAKING };

struct flour {
    const char *name;
    unsigned price;
};

struct loaf {
    const struct flour *volatile flour;
    volatile unsigned weight;
};

struct tray {
    volatile unsigned state;
    struct loaf loaf;
    unsigned uses;
};

static const struct flour flours[] = {{"rye", 3}, {"wheat", 4}, {"spelt", 6}};
static struct tray trays[TRAYS];
static unsigned price, weight, slices, sold, baked[HARTS];

static int change_state(struct tray *tray, unsigned from, unsigned to)
{
    return __sync_bool_compare_and_swap(&tray->state, from, to);
}

static void set_state(struct tray *tray, unsigned state)
{
    __sync_synchronize();
    tray->state = state;
}

static struct tray *find(unsigned from, unsigned to, unsigned first)
{
    for (unsigned i = 0; i < TRAYS; i++) {
        struct tray *tray = &trays[(first + i) % TRAYS];
        if (tray->state == from && change_state(tray, from, to))
            return tray;
    }
    return 0;
}

static void wipe(struct loaf *loaf)
{
    loaf->flour = 0;
    loaf->weight = 0;
}

static void heat(unsigned much)
{
    for (volatile unsigned i = 1 + much; i; i--)
        ;
}

static void knead(struct loaf *loaf, unsigned hart, unsigned number)
{
    loaf->weight = 500 + 10 * (number % 7) + hart;
    loaf->flour = &flours[(hart + number) % 3];
}

static void bake(unsigned hart)
{
    for (unsigned number = 0; number < LOAVES; number++) {
        struct tray *tray;
        while (!(tray = find(EMPTY, FILLING, hart)))
            ;
        wipe(&tray->loaf);
        heat(number % 4);
        knead(&tray->loaf, hart, number);
        tray->uses++;
        set_state(tray, FULL);
        baked[hart]++;
    }
}

static unsigned slices_of(const struct loaf *loaf)
{
    unsigned count = 0;
    for (unsigned left = loaf->weight; left >= 40; left -= 40)
        count++;
    return count;
}

static void sell(const struct loaf *loaf)
{
    weight += loaf->weight;
    slices += slices_of(loaf);
    price += loaf->flour->price * loaf->weight / 100;
    sold++;
}

static void take_off(struct tray *tray)
{
    struct loaf *loaf = &tray->loaf;
    set_state(tray, EMPTY);
    sell(loaf);
}

static void count_letters(const struct tray *tray)
{
    const struct flour *flour = tray->loaf.flour;
    for (const char *name = flour->name; *name; name++)
        price++;
}

static void taste(struct tray *tray)
{
    count_letters(tray);
    sell(&tray->loaf);
    set_state(tray, EMPTY);
}

int other_harts(int hart, int harts)
{
    (void)harts;
    if (hart < HARTS)
        bake(hart);
    return 0;
}

int main(void)
{
    unsigned uses = 0;

    while (sold < LOAVES * (HARTS - 1)) {
        struct tray *tray = find(FULL, TAKING, sold);
        if (!tray)
            continue;
        if (sold % 5 == 4)
            taste(tray);
        else
            take_off(tray);
    }
    for (unsigned i = 0; i < TRAYS; i++)
        uses += trays[i].uses;
    return (uses + price + weight + slices) & 1;
}
