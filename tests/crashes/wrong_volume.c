/* Boxes are loaded onto cars: the volume of each car is told, and the weight that is paid for. */
#include "draw.h"
#include "machine.h"

#define CARS 6
#define BOXES 40

struct box {
    unsigned char wide;
    unsigned char deep;
    unsigned char high;
    unsigned char car;
    unsigned short volume;
    unsigned short weight;
};

struct car {
    unsigned boxes;
    unsigned volume;
    unsigned weight;
};

static struct box boxes[BOXES];
static struct car cars[CARS];
static char text[80];

static unsigned side(unsigned number)
{
    return (number == 29 ? 38 : 10) + draw(25);
}

static void measure(struct box *box, unsigned number)
{
    box->wide = side(number);
    box->deep = side(number);
    box->high = side(number);
    box->volume = box->wide * box->deep * box->high;
    box->weight = 20 + draw(300);
    box->car = number % CARS;
}

static unsigned paid_weight(const struct box *box)
{
    unsigned by_volume = box->volume / 100;
    return by_volume > box->weight ? by_volume : box->weight;
}

static void load(const struct box *box)
{
    struct car *car = &cars[box->car];
    car->boxes++;
    car->volume += box->volume;
    car->weight += paid_weight(box);
}

static const struct car *fullest(void)
{
    const struct car *best = cars;
    for (unsigned i = 1; i < CARS; i++)
        if (cars[i].volume > best->volume)
            best = &cars[i];
    return best;
}

static void print_car(unsigned number, const struct car *car)
{
    char *to = put_text(text, "car ");
    to = put_number(to, number);
    to = put_text(to, ": ");
    to = put_number(to, car->boxes);
    to = put_text(to, " boxes, volume ");
    to = put_number(to, car->volume);
    to = put_text(to, ", weight ");
    to = put_number(to, car->weight);
    to = put_text(to, "\n");
    write_all(STREAM_OUT, text, to - text);
}

static void print_fullest(void)
{
    char *to = put_text(text, "fullest: ");
    to = put_number(to, fullest() - cars);
    to = put_text(to, "\n");
    write_all(STREAM_OUT, text, to - text);
}

static unsigned heaviest(void)
{
    unsigned best = 0;
    for (unsigned i = 1; i < BOXES; i++)
        if (boxes[i].weight > boxes[best].weight)
            best = i;
    return best;
}

int main(void)
{
    for (unsigned i = 0; i < BOXES; i++)
        measure(&boxes[i], i);
    for (unsigned i = 0; i < BOXES; i++)
        load(&boxes[i]);
    for (unsigned i = 0; i < CARS; i++)
        print_car(i, &cars[i]);
    print_fullest();
    return heaviest() >= BOXES;
}
