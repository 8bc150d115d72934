/* Hart 0 steers a boat: its course and its sail belong together. Others read both, and look if somebody wrote meanwhile. */
#include "machine.h"

#define HARTS 3
#define TURNS 300
#define LOOKS 250
#define SAILS 4

struct course {
    volatile unsigned version;
    volatile unsigned first;
    volatile unsigned count;
};

struct sail {
    const char *name;
    unsigned area;
};

struct watch {
    unsigned retries;
    unsigned area;
    unsigned letters;
};

static const struct sail sails[SAILS] = {{"jib", 12}, {"main", 30}, {"storm", 5}, {"spinnaker", 60}};
static const struct sail *rigged[2 * SAILS];
static struct course course;
static struct watch watches[HARTS];
static volatile unsigned finished, rigged_now;
static unsigned drawn = 4;

static unsigned draw_one(unsigned below)
{
    drawn = drawn * 1103515245 + 12345;
    return (drawn >> 16) % below;
}

static void begin_change(void)
{
    course.version = course.version + 1;
    __sync_synchronize();
}

static void end_change(void)
{
    __sync_synchronize();
    course.version = course.version + 1;
}

static void steer(void)
{
    unsigned count = 1 + draw_one(SAILS), first = draw_one(2) ? SAILS - count : 0;
    begin_change();
    course.first = first;
    course.count = count;
    end_change();
}

static unsigned begin_look(void)
{
    unsigned version;
    while ((version = course.version) & 1)
        ;
    __sync_synchronize();
    return version;
}

static int has_changed(unsigned version)
{
    __sync_synchronize();
    return course.version != version;
}

static unsigned area_of(unsigned first, unsigned count)
{
    unsigned area = 0;
    for (unsigned i = first; i < first + count; i++)
        area += rigged[i]->area;
    return area;
}

static void look_at_area(struct watch *watch)
{
    unsigned version, first, count;
    do {
        version = begin_look();
        first = course.first;
        count = course.count;
        watch->retries++;
    } while (has_changed(version));
    watch->area += area_of(first, count);
}

static void look_at_last(struct watch *watch)
{
    unsigned last;
    begin_look();
    last = course.first + course.count - 1;
    for (const char *name = rigged[last]->name; *name; name++)
        watch->letters++;
}

static void pause(unsigned much)
{
    for (volatile unsigned i = much; i; i--)
        ;
}

static void keep_watch(struct watch *watch)
{
    for (unsigned i = 0; i < LOOKS; i++) {
        if (i % 3)
            look_at_area(watch);
        else
            look_at_last(watch);
        pause(i % 5);
    }
    __sync_fetch_and_add(&finished, 1);
}

int other_harts(int hart, int harts)
{
    (void)harts;
    while (!rigged_now)
        ;
    if (hart < HARTS)
        keep_watch(&watches[hart]);
    return 0;
}

int main(void)
{
    for (unsigned i = 0; i < SAILS; i++)
        rigged[i] = &sails[i];
    steer();
    rigged_now = 1;
    for (unsigned i = 0; i < TURNS; i++) {
        steer();
        pause(draw_one(12));
    }
    while (finished < HARTS - 1)
        ;
    return (watches[1].area + watches[2].letters) & 1;
}
