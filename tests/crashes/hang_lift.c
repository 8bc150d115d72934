/* A lift: people call it to their floor and say where they want to go. It goes on in one direction while somebody waits there. */
#include "draw.h"

#define FLOORS 12
#define PEOPLE 400
#define MOST_INSIDE 6

enum direction { DOWN, UP };

struct floor {
    unsigned waiting;
    unsigned wanted;
};

static struct floor floors[FLOORS];
static unsigned at, inside, carried, moves, turns;
static enum direction direction = UP;

static int is_wanted(unsigned floor)
{
    return floors[floor].waiting || floors[floor].wanted;
}

static int has_above(void)
{
    for (unsigned floor = at + 1; floor < FLOORS; floor++)
        if (is_wanted(floor))
            return 1;
    return 0;
}

static int has_below(void)
{
    for (unsigned floor = 0; floor < at; floor++)
        if (is_wanted(floor))
            return 1;
    return 0;
}

static void call(unsigned floor)
{
    floors[floor].waiting++;
}

static void let_out(void)
{
    unsigned count = floors[at].wanted;
    inside -= count;
    carried += count;
    floors[at].wanted = 0;
}

static unsigned goal_from(unsigned floor)
{
    unsigned goal = draw(FLOORS);
    return goal == floor && floor ? goal - 1 : goal;
}

static void let_in(void)
{
    while (floors[at].waiting && inside < MOST_INSIDE) {
        floors[at].waiting--;
        floors[goal_from(at)].wanted++;
        inside++;
    }
}

static void move(void)
{
    if (direction == UP && !has_above()) {
        direction = DOWN;
        turns++;
    } else if (direction == DOWN && !has_below()) {
        direction = UP;
        turns++;
    }
    if (direction == UP && has_above())
        at++;
    else if (direction == DOWN && has_below())
        at--;
    moves++;
}

static int is_busy(void)
{
    return inside || has_above() || has_below();
}

static void serve(void)
{
    while (is_busy()) {
        unsigned before = at;
        move();
        if (at != before && is_wanted(at)) {
            let_out();
            let_in();
        }
    }
}

int main(void)
{
    for (unsigned person = 0; person < PEOPLE; person++) {
        call(draw(FLOORS));
        if (draw(3) == 0)
            serve();
    }
    return (carried + moves + turns) & 1;
}
