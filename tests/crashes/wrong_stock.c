/* A store's journal: arrivals, sales and returns of goods. At the end the stock and its value are told. */
#include "draw.h"
#include "machine.h"

#define GOODS 6
#define ENTRIES 160

enum { ARRIVAL, SALE, RETURN, BREAKAGE };

struct entry {
    unsigned char kind;
    unsigned char good;
    unsigned short pieces;
};

struct good {
    const char *name;
    unsigned price;
    unsigned pieces;
    unsigned sold;
    unsigned broken;
};

static struct good goods[GOODS] = {
    {"lamps", 1250, 40, 0, 0}, {"chairs", 4900, 30, 0, 0}, {"tables", 12900, 12, 0, 0},
    {"mugs", 350, 200, 0, 0}, {"clocks", 2100, 25, 0, 0}, {"rugs", 7700, 8, 0, 0},
};
static struct entry journal[ENTRIES];
static char text[96];
static unsigned refused;

static void write_journal(void)
{
    for (unsigned i = 0; i < ENTRIES; i++) {
        unsigned what = draw(10);
        journal[i].kind = what < 3 ? ARRIVAL : what < 8 ? SALE : what < 9 ? RETURN : BREAKAGE;
        journal[i].good = draw(GOODS);
        journal[i].pieces = 1 + draw(journal[i].good == 3 ? 12 : 4);
    }
}

static void arrive(struct good *good, unsigned pieces)
{
    good->pieces += pieces;
}

static void sell(struct good *good, unsigned pieces)
{
    if (pieces > good->pieces) {
        refused++;
        return;
    }
    good->pieces -= pieces;
    good->sold += pieces;
}

static void take_back(struct good *good, unsigned pieces)
{
    if (pieces > good->sold)
        pieces = good->sold;
    good->sold -= pieces;
    good->pieces += pieces;
}

static void strike_off(struct good *good, unsigned pieces)
{
    good->broken += pieces;
    if (good->broken % 2)
        good->pieces -= pieces > good->pieces ? good->pieces : pieces;
}

static void book(const struct entry *entry)
{
    struct good *good = &goods[entry->good];
    switch (entry->kind) {
    case ARRIVAL:
        arrive(good, entry->pieces);
        break;
    case SALE:
        sell(good, entry->pieces);
        break;
    case RETURN:
        take_back(good, entry->pieces);
        break;
    default:
        strike_off(good, entry->pieces);
    }
}

static void print_good(const struct good *good)
{
    char *end = put_text(text, good->name);
    end = put_number(put_text(end, ": "), good->pieces);
    end = put_number(put_text(end, " pieces, worth "), good->pieces * good->price / 100);
    end = put_number(put_text(end, ", sold "), good->sold);
    *end++ = '\n';
    write_all(STREAM_OUT, text, end - text);
}

int main(void)
{
    write_journal();
    for (unsigned i = 0; i < ENTRIES; i++)
        book(&journal[i]);
    for (unsigned i = 0; i < GOODS; i++)
        print_good(&goods[i]);
    return refused & 1;
}
