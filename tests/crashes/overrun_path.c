/* Ways through a field of walls: a search keeps the places that it still has to look at on a stack. */
#include "draw.h"
#include "machine.h"

#define WIDE 18
#define HIGH 12
#define FIELDS 40
#define ROOM 20

struct place {
    unsigned char x;
    unsigned char y;
    unsigned short steps;
};

struct view {
    const char *title;
    unsigned seen;
};

static struct search {
    struct place todo[ROOM];
    struct view *view;
    unsigned count;
    unsigned lost;
} search;

static unsigned char wall[HIGH][WIDE], was_there[HIGH][WIDE];
static struct view views[2] = {{"open", 0}, {"walled", 0}};

static void build(unsigned density)
{
    for (unsigned y = 0; y < HIGH; y++)
        for (unsigned x = 0; x < WIDE; x++) {
            wall[y][x] = draw(100) < density;
            was_there[y][x] = 0;
        }
    wall[HIGH / 2][WIDE / 2] = 0;
}

static void push(unsigned x, unsigned y, unsigned steps)
{
    if (search.count > ROOM) {
        search.lost++;
        return;
    }
    struct place *place = &search.todo[search.count++];
    place->x = x;
    place->y = y;
    place->steps = steps;
}

static struct place pop(void)
{
    return search.todo[--search.count];
}

static int is_open(unsigned x, unsigned y)
{
    return x < WIDE && y < HIGH && !wall[y][x] && !was_there[y][x];
}

static void visit(unsigned x, unsigned y, unsigned steps)
{
    if (is_open(x, y)) {
        was_there[y][x] = 1;
        push(x, y, steps);
    }
}

static unsigned explore(struct view *view)
{
    unsigned farthest = 0;
    search.count = 0;
    search.view = view;
    visit(WIDE / 2, HIGH / 2, 0);
    while (search.count) {
        struct place place = pop();
        if (place.steps > farthest)
            farthest = place.steps;
        visit(place.x + 1, place.y, place.steps + 1);
        visit(place.x - 1, place.y, place.steps + 1);
        visit(place.x, place.y + 1, place.steps + 1);
        visit(place.x, place.y - 1, place.steps + 1);
    }
    search.view->seen += farthest;
    return farthest;
}

static unsigned count_seen(void)
{
    unsigned sum = 0;
    for (unsigned y = 0; y < HIGH; y++)
        for (unsigned x = 0; x < WIDE; x++)
            sum += was_there[y][x];
    return sum;
}

int main(void)
{
    unsigned sum = 0;

    for (unsigned i = 0; i < FIELDS; i++) {
        unsigned density = 75 - i;
        build(density);
        sum += explore(&views[density > 50]);
        sum += count_seen();
    }
    return (sum + views[0].title[0]) & 1;
}
