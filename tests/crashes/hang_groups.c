/* Groups of a catalogue: each has a parent, and orders move groups and things below others. */
#include "draw.h"
#include "machine.h"

#define GROUPS 24
#define THINGS 60
#define ORDERS 200

struct group {
    struct group *parent;
    unsigned things;
    unsigned weight;
    unsigned depth;
};

struct thing {
    struct group *group;
    unsigned weight;
};

static struct group groups[GROUPS];
static struct thing things[THINGS];
static unsigned refused;

static void set_up(void)
{
    for (unsigned i = 1; i < GROUPS; i++)
        groups[i].parent = &groups[draw(i)];
    for (unsigned i = 0; i < THINGS; i++) {
        things[i].weight = 1 + draw(9);
        things[i].group = &groups[draw(GROUPS)];
        things[i].group->things++;
    }
}

static void add_weight(struct group *group, int weight)
{
    for (; group; group = group->parent)
        group->weight += weight;
}

static unsigned depth_of(const struct group *group)
{
    unsigned depth = 0;
    while (group->parent) {
        group = group->parent;
        depth++;
    }
    return depth;
}

static int is_below(const struct group *group, const struct group *other)
{
    while (group && group != other)
        group = group->parent;
    return group != 0;
}

static void move_thing(struct thing *thing, struct group *to)
{
    thing->group->things--;
    add_weight(thing->group, -(int)thing->weight);
    thing->group = to;
    to->things++;
    add_weight(to, thing->weight);
}

static void move_group(struct group *group, struct group *to)
{
    if (group == groups || is_below(to, group)) {
        refused++;
        return;
    }
    group->parent = to;
    group->depth = depth_of(group);
}

static void exchange(struct group *one, struct group *other)
{
    struct group *parent = one->parent;
    if (!parent || !other->parent || one == other)
        return;
    one->parent = other->parent;
    other->parent = parent;
}

static unsigned deepest(void)
{
    unsigned most = 0;
    for (unsigned i = 0; i < GROUPS; i++) {
        groups[i].depth = depth_of(&groups[i]);
        if (groups[i].depth > most)
            most = groups[i].depth;
    }
    return most;
}

int main(void)
{
    unsigned sum = 0;

    set_up();
    for (unsigned i = 0; i < THINGS; i++)
        add_weight(things[i].group, things[i].weight);
    for (unsigned i = 0; i < ORDERS; i++) {
        if (i % 3 == 0)
            move_thing(&things[draw(THINGS)], &groups[draw(GROUPS)]);
        else if (i % 3 == 1)
            move_group(&groups[draw(GROUPS)], &groups[draw(GROUPS)]);
        else if (i % 2)
            exchange(&groups[1 + draw(GROUPS - 1)], &groups[1 + draw(GROUPS - 1)]);
        if (i % 10 == 9)
            sum += deepest();
    }
    return (sum + groups[0].weight + refused) & 1;
}
