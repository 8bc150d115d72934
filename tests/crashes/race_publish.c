/* Hart 0 plans routes and publishes the latest plan, hart 1 follows it. */
#include "draw.h"
#include "machine.h"

#define PLANS 3
#define STOPS 5
#define ROUNDS 500

struct stop {
    unsigned x, y;
    const char *name;
};

struct plan {
    unsigned number;
    unsigned stops;
    unsigned length;
    const struct stop *route[STOPS];
};

static const struct stop all_stops[] = {
    {3, 9, "mill"}, {14, 2, "bridge"}, {7, 7, "church"}, {1, 12, "station"}, {9, 4, "market"}, {12, 11, "harbour"},
};
static struct plan plans[PLANS];
static struct plan *volatile current;
static volatile unsigned over;
static unsigned followed;

static unsigned distance(const struct stop *from, const struct stop *to)
{
    unsigned dx = from->x > to->x ? from->x - to->x : to->x - from->x;
    unsigned dy = from->y > to->y ? from->y - to->y : to->y - from->y;
    return dx + dy;
}

static void clear(struct plan *plan)
{
    plan->stops = 0;
    plan->length = 0;
    for (unsigned i = 0; i < STOPS; i++)
        plan->route[i] = 0;
}

static void add_stop(struct plan *plan, const struct stop *stop)
{
    if (plan->stops)
        plan->length += distance(plan->route[plan->stops - 1], stop);
    plan->route[plan->stops] = stop;
    plan->stops++;
}

static void choose_stops(struct plan *plan, unsigned wanted)
{
    for (unsigned i = 0; i < wanted; i++)
        add_stop(plan, &all_stops[(draw(6) + i) % 6]);
}

static void make_plan(unsigned number)
{
    struct plan *plan = &plans[number % PLANS];
    clear(plan);
    plan->number = number;
    if (number % 8 == 5) {
        current = plan;
        choose_stops(plan, STOPS);
    } else {
        choose_stops(plan, 2 + draw(STOPS - 2));
        __sync_synchronize();
        current = plan;
    }
}

static unsigned follow(const struct plan *plan)
{
    const struct stop *last = plan->route[0];
    unsigned way = last->x + last->y;
    for (unsigned i = 1; i < plan->stops; i++) {
        way += distance(last, plan->route[i]);
        last = plan->route[i];
    }
    followed++;
    return way + last->name[0];
}

static unsigned think(unsigned turns)
{
    unsigned sum = turns;
    for (unsigned i = 0; i < turns; i++)
        sum = sum * 5 + i;
    return sum;
}

int other_harts(int hart, int harts)
{
    unsigned sum = 0;
    (void)harts;
    while (hart == 1 && !over) {
        const struct plan *plan = current;
        if (plan)
            sum += follow(plan);
    }
    return sum & 1;
}

int main(void)
{
    unsigned sum = 0;

    for (unsigned i = 0; i < ROUNDS; i++) {
        make_plan(i);
        sum += think(40 + draw(60));
    }
    over = 1;
    return (sum + followed) & 1;
}
