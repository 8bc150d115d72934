/* A basket of fruit: each piece has days that it keeps. Each evening what has gone bad is taken out, and the rest is counted. */
#include "draw.h"
#include "machine.h"

#define MOST 32
#define DAYS 8
#define KINDS 4

struct fruit {
    unsigned kind;
    unsigned keeps;
    unsigned weight;
};

struct basket {
    unsigned count;
    struct fruit fruits[MOST];
    unsigned thrown;
    unsigned eaten;
};

static const char *const names[KINDS] = {"apples", "pears", "plums", "cherries"};
static const unsigned char keeping[KINDS] = {9, 6, 4, 2};
static struct basket basket;
static char text[128];

static void put_in(unsigned kind)
{
    struct fruit *fruit;
    if (basket.count == MOST)
        return;
    fruit = &basket.fruits[basket.count++];
    fruit->kind = kind;
    fruit->keeps = 1 + draw(keeping[kind]);
    fruit->weight = 10 + draw(20 * (KINDS - kind));
}

static void take_out(unsigned place)
{
    basket.fruits[place] = basket.fruits[--basket.count];
}

static void buy(void)
{
    unsigned count = 6 + draw(8);
    while (count--)
        put_in(draw(KINDS));
}

static void eat(void)
{
    unsigned count = 2 + draw(3);
    while (count-- && basket.count) {
        take_out(draw(basket.count));
        basket.eaten++;
    }
}

static void grow_old(void)
{
    for (unsigned i = 0; i < basket.count; i++)
        if (basket.fruits[i].keeps)
            basket.fruits[i].keeps--;
}

static void sort_out(void)
{
    for (unsigned i = 0; i < basket.count; i++)
        if (basket.fruits[i].keeps == 0) {
            take_out(i);
            basket.thrown++;
        }
}

static unsigned count_of(unsigned kind)
{
    unsigned count = 0;
    for (unsigned i = 0; i < basket.count; i++)
        count += basket.fruits[i].kind == kind;
    return count;
}

static unsigned weight_of_all(void)
{
    unsigned weight = 0;
    for (unsigned i = 0; i < basket.count; i++)
        weight += basket.fruits[i].weight;
    return weight;
}

static void print(unsigned day)
{
    char *end = put_number(put_text(text, "day "), day + 1);
    end = put_text(end, ":");
    for (unsigned kind = 0; kind < KINDS; kind++) {
        end = put_number(put_text(end, " "), count_of(kind));
        end = put_text(put_text(end, " "), names[kind]);
    }
    end = put_number(put_text(end, ", together "), weight_of_all());
    end = put_number(put_text(end, ", thrown away "), basket.thrown);
    *end++ = '\n';
    write_all(STREAM_OUT, text, end - text);
}

int main(void)
{
    for (unsigned day = 0; day < DAYS; day++) {
        if (day % 3 == 0)
            buy();
        eat();
        grow_old();
        sort_out();
        print(day);
    }
    return 0;
}
