/* A table of measured values. Watchers are told of each change of a value; some ask to be told only a few times. */
#include "draw.h"
#include "heap.h"

#define VALUES 12
#define GROUPS 4
#define CHANGES 3000

struct watcher {
    unsigned value;
    unsigned left;
    unsigned sum;
    unsigned *total;
    struct watcher *next;
};

struct group {
    struct watcher *latest;
    unsigned told;
};

static struct watcher *watchers[VALUES];
static struct group groups[GROUPS];
static unsigned values[VALUES], totals[GROUPS];
static unsigned alive;

static struct watcher *watch(unsigned value, unsigned group, unsigned times)
{
    struct watcher *watcher = take(sizeof *watcher);
    watcher->value = value;
    watcher->left = times;
    watcher->sum = 0;
    watcher->total = &totals[group];
    watcher->next = watchers[value];
    watchers[value] = watcher;
    groups[group].latest = watcher;
    alive++;
    return watcher;
}

static void unlink_watcher(struct watcher *watcher)
{
    struct watcher **link = &watchers[watcher->value];
    while (*link != watcher)
        link = &(*link)->next;
    *link = watcher->next;
}

static void end_watching(struct watcher *watcher)
{
    unlink_watcher(watcher);
    *watcher->total += watcher->sum;
    give(watcher);
    alive--;
}

static void tell(struct watcher *watcher, unsigned before, unsigned after)
{
    watcher->sum += after > before ? after - before : before - after;
    watcher->left--;
}

static void change(unsigned value, unsigned to)
{
    unsigned before = values[value];
    struct watcher *next;
    values[value] = to;
    for (struct watcher *watcher = watchers[value]; watcher; watcher = next) {
        next = watcher->next;
        tell(watcher, before, to);
        if (!watcher->left)
            end_watching(watcher);
    }
}

static void tell_group(struct group *group, unsigned amount)
{
    struct watcher *watcher = group->latest;
    if (watcher) {
        watcher->sum += amount;
        *watcher->total += amount / 8;
        group->told++;
    }
}

static void *new_note(unsigned length)
{
    unsigned *note = take(length);
    for (unsigned i = 0; i < length / 4; i++)
        note[i] = draw(1000);
    return note;
}

int main(void)
{
    void *notes[8] = {0};
    unsigned sum = 0;

    for (unsigned i = 0; i < CHANGES; i++) {
        if (alive < 20 && draw(25) == 0)
            watch(draw(VALUES), draw(GROUPS), 2 + draw(10));
        change(draw(VALUES), draw(500));
        if (i % 7 == 6)
            tell_group(&groups[draw(GROUPS)], draw(90));
        if (i > 100 && i % 9 == 8) {
            unsigned at = draw(8);
            if (notes[at])
                give(notes[at]);
            notes[at] = new_note(20);
        }
    }
    for (unsigned i = 0; i < GROUPS; i++)
        sum += totals[i] + groups[i].told;
    return sum & 1;
}
