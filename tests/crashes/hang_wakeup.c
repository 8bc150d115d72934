/* Hart 0 hands letters to hart 1. Each sleeps by looking at its bell, which the other rings. */
#include "draw.h"
#include "machine.h"

#define BOX 1
#define LETTERS 400

struct letter {
    unsigned number;
    unsigned weight;
    unsigned stamps;
};

struct bell {
    volatile unsigned rung;
    unsigned rings;
    unsigned slept;
};

static struct letter letters[BOX];
static volatile unsigned posted, delivered;
static struct bell giver, taker;
static unsigned weights;

static void ring(struct bell *bell)
{
    bell->rung = 1;
    bell->rings++;
}

static void sleep_until_rung(struct bell *bell)
{
    bell->slept++;
    bell->rung = 0;
    while (!bell->rung)
        ;
}

static unsigned stamps_of(unsigned weight)
{
    unsigned stamps = 1;
    while (weight > 20) {
        weight -= weight / 3;
        stamps++;
    }
    return stamps;
}

static void write_letter(struct letter *letter, unsigned number)
{
    letter->number = number;
    letter->weight = 10 + draw(300);
    letter->stamps = stamps_of(letter->weight);
}

static void post(unsigned number)
{
    while (posted - delivered == BOX)
        sleep_until_rung(&giver);
    write_letter(&letters[number % BOX], number);
    __sync_synchronize();
    posted = number + 1;
    ring(&taker);
}

static unsigned postage(const struct letter *letter)
{
    unsigned price = 0;
    for (unsigned i = 0; i < letter->stamps; i++)
        price += 60 + 5 * i;
    return price;
}

static unsigned deliver(void)
{
    while (delivered == posted)
        sleep_until_rung(&taker);
    const struct letter *letter = &letters[delivered % BOX];
    unsigned price = postage(letter);
    weights += letter->weight;
    __sync_synchronize();
    delivered++;
    ring(&giver);
    return price;
}

static unsigned rest(unsigned turns)
{
    unsigned sum = 1;
    for (unsigned i = 0; i < turns; i++)
        sum = sum * 3 + i;
    return sum;
}

int other_harts(int hart, int harts)
{
    unsigned sum = 0;
    (void)harts;
    for (unsigned i = 0; hart == 1 && i < LETTERS; i++) {
        sum += deliver();
        sum ^= rest(i % 13);
    }
    return sum & 1;
}

int main(void)
{
    unsigned sum = 0;

    for (unsigned i = 0; i < LETTERS; i++) {
        post(i);
        sum += rest(draw(i % 50 < 25 ? 8 : 90));
    }
    return sum & 1;
}
