/* Trains by departure: times are kept as minutes of a week, sorted by a heap, and printed as a board. */
#include "draw.h"
#include "machine.h"

#define TRAINS 24
#define DAY 1440

struct train {
    unsigned short number;
    unsigned char platform;
    unsigned char is_late;
    unsigned short leaves;
    unsigned short delay;
};

static struct train trains[TRAINS];
static const struct train *heap[TRAINS];
static unsigned in_heap;
static char text[64];

static void set_up(void)
{
    for (unsigned i = 0; i < TRAINS; i++) {
        trains[i].number = 100 + 7 * i;
        trains[i].platform = 1 + draw(9);
        trains[i].leaves = draw(DAY);
        trains[i].is_late = draw(5) == 0;
        trains[i].delay = trains[i].is_late ? 5 + draw(55) : 0;
    }
}

static unsigned char key(const struct train *train)
{
    return (train->leaves + train->delay) / 5;
}

static int is_before(const struct train *one, const struct train *other)
{
    if (key(one) != key(other))
        return key(one) < key(other);
    return one->number < other->number;
}

static void exchange(unsigned a, unsigned b)
{
    const struct train *train = heap[a];
    heap[a] = heap[b];
    heap[b] = train;
}

static void push(const struct train *train)
{
    unsigned at = in_heap++;
    heap[at] = train;
    while (at && is_before(heap[at], heap[(at - 1) / 2])) {
        exchange(at, (at - 1) / 2);
        at = (at - 1) / 2;
    }
}

static const struct train *pop(void)
{
    const struct train *top = heap[0];
    unsigned at = 0;
    heap[0] = heap[--in_heap];
    for (;;) {
        unsigned least = at;
        for (unsigned child = 2 * at + 1; child < 2 * at + 3 && child < in_heap; child++)
            if (is_before(heap[child], heap[least]))
                least = child;
        if (least == at)
            return top;
        exchange(at, least);
        at = least;
    }
}

static char *put_two(char *to, unsigned number)
{
    *to++ = '0' + number / 10;
    *to++ = '0' + number % 10;
    return to;
}

static void print_train(const struct train *train)
{
    char *end = put_two(text, train->leaves / 60);
    *end++ = ':';
    end = put_two(end, train->leaves % 60);
    end = put_text(end, " train ");
    end = put_number(end, train->number);
    end = put_text(end, " platform ");
    end = put_number(end, train->platform);
    if (train->is_late) {
        end = put_text(end, " late by ");
        end = put_number(end, train->delay);
    }
    *end++ = '\n';
    write_all(STREAM_OUT, text, end - text);
}

int main(void)
{
    set_up();
    for (unsigned i = 0; i < TRAINS; i++)
        push(&trains[i]);
    while (in_heap)
        print_train(pop());
    return 0;
}
