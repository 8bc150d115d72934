/* Messages on the heap: an expired one is freed by the sweep and again by its reader, so two owners get one block. */
#include "draw.h"
#include "heap.h"
#include "machine.h"

#define BOX 12

struct message {
    const char *from;
    unsigned age;
};

struct order {
    unsigned amount;
    unsigned price;
};

static struct message *box[BOX];
static struct order *orders[8];

static struct message *receive(const char *from)
{
    struct message *message = take(sizeof *message);
    message->from = from;
    message->age = 0;
    return message;
}

static void sweep(void)
{
    for (int i = 0; i < BOX; i++)
        if (++box[i]->age > 8)
            give(box[i]);
}

static unsigned read_message(int i)
{
    unsigned letter = box[i]->from[0];
    give(box[i]);
    box[i] = receive("carol");
    return letter;
}

static void place_order(int i)
{
    orders[i] = take(sizeof *orders[i]);
    orders[i]->amount = 100000000 + i * 4;
    orders[i]->price = 7;
}

int main(void)
{
    unsigned sum = 0;

    for (int i = 0; i < BOX; i++)
        box[i] = receive(i & 1 ? "alice" : "bob");
    for (int round = 0; round < 70; round++) {
        int i = draw(BOX);
        sum += read_message(i);
        if (round % 5 == 0)
            sweep();
        if (round % 10 == 9)
            place_order(round / 10);
        for (int k = 0; k < 4; k++)
            box[(i + k) % BOX]->age += draw(3);
    }
    return sum & 1;
}
