/* Pictures are shown in windows. Windows that show the same picture share it; the last one that closes gives it back. */
#include "draw.h"
#include "heap.h"

#define WINDOWS 8
#define STEPS 400
#define POINTS 24

struct picture {
    unsigned users;
    unsigned width;
    unsigned *points;
};

struct window {
    struct picture *picture;
    unsigned place;
    unsigned is_open;
};

static struct window windows[WINDOWS];
static unsigned made, given, light;

static struct picture *make(void)
{
    struct picture *picture = take(sizeof *picture);
    picture->users = 1;
    picture->width = 4 + draw(POINTS - 4);
    picture->points = take(picture->width * sizeof *picture->points);
    for (unsigned i = 0; i < picture->width; i++)
        picture->points[i] = draw(256);
    made++;
    return picture;
}

static struct picture *hold(struct picture *picture)
{
    picture->users++;
    return picture;
}

static void drop(struct picture *picture)
{
    if (--picture->users)
        return;
    give(picture->points);
    picture->points = 0;
    give(picture);
    given++;
}

static void open(struct window *window, struct picture *picture)
{
    window->picture = picture;
    window->place = draw(100);
    window->is_open = 1;
}

static void close(struct window *window)
{
    drop(window->picture);
    window->is_open = 0;
}

static void split(struct window *from, struct window *to)
{
    if (to->is_open)
        close(to);
    open(to, hold(from->picture));
}

static void show_other(struct window *window)
{
    struct picture *picture = make();
    drop(window->picture);
    window->picture = picture;
}

static void show_same(struct window *window, struct window *as)
{
    struct picture *picture = as->picture;
    if (window->picture != picture)
        hold(picture);
    drop(window->picture);
    window->picture = picture;
}

static unsigned light_of(const struct picture *picture)
{
    unsigned sum = 0;
    for (unsigned i = 0; i < picture->width; i++)
        sum += picture->points[i];
    return sum / picture->width;
}

static void draw_all(void)
{
    for (unsigned i = 0; i < WINDOWS; i++)
        if (windows[i].is_open)
            light += light_of(windows[i].picture);
}

static void step(void)
{
    struct window *one = &windows[draw(WINDOWS)], *other = &windows[draw(WINDOWS)];
    unsigned what = draw(20);
    if (!one->is_open)
        open(one, make());
    else if (what < 6 && one != other)
        split(one, other);
    else if (what < 10)
        show_other(one);
    else if (what < 13 && other->is_open)
        show_same(one, other);
    else if (what < 17)
        close(one);
}

int main(void)
{
    for (unsigned i = 0; i < STEPS; i++) {
        step();
        draw_all();
    }
    return (made + given + light) & 1;
}
