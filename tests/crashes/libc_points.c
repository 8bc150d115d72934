/* Lines of a drawing grow by points. Each has a block of malloc for its points, and lines are joined and drawn. */
#include <stdlib.h>

#include "draw.h"

#define LINES 6
#define ORDERS 900

struct point {
    short x;
    short y;
};

struct line {
    struct point *points;
    unsigned count;
    unsigned room;
    struct pen *pen;
};

struct pen {
    unsigned wide;
    unsigned drawn;
};

static struct line *lines[LINES];
static unsigned joined, long_ones;

static struct line *new_line(void)
{
    struct line *line = malloc(sizeof *line);
    line->count = 0;
    line->room = 4;
    line->points = malloc(line->room * sizeof *line->points);
    line->pen = malloc(sizeof *line->pen);
    line->pen->wide = 1 + draw(4);
    line->pen->drawn = 0;
    return line;
}

static void end_line(struct line *line)
{
    free(line->points);
    free(line->pen);
    free(line);
}

static void add_point(struct line *line, int x, int y)
{
    if (line->count == line->room) {
        line->room *= 2;
        line->points = realloc(line->points, line->room * sizeof *line->points);
    }
    line->points[line->count++] = (struct point){x, y};
}

static void join(struct line *to, const struct line *from)
{
    unsigned count = to->count + from->count;
    if (count > to->room) {
        to->points = realloc(to->points, count * sizeof *to->points);
        to->room = count * 2;
    }
    for (unsigned i = 0; i < from->count; i++)
        to->points[to->count++] = from->points[i];
    joined++;
}

static unsigned distance(const struct point *one, const struct point *other)
{
    int x = one->x - other->x, y = one->y - other->y;
    return (x < 0 ? -x : x) + (y < 0 ? -y : y);
}

static unsigned draw_line(struct line *line)
{
    unsigned length = 0;
    for (unsigned i = 1; i < line->count; i++)
        length += distance(&line->points[i], &line->points[i - 1]);
    line->pen->drawn += length * line->pen->wide;
    return line->pen->drawn;
}

static unsigned obey(unsigned order)
{
    struct line **place = &lines[draw(LINES)], *other = lines[draw(LINES)];
    if (!*place)
        *place = new_line();
    add_point(*place, draw(200), draw(200));
    if (order % 9 == 8 && other && other != *place && order > 40)
        join(*place, other);
    if ((*place)->count > 40) {
        end_line(*place);
        *place = 0;
        long_ones++;
        return 0;
    }
    return draw_line(*place);
}

int main(void)
{
    unsigned sum = 0;

    for (unsigned i = 0; i < ORDERS; i++)
        sum += obey(i);
    for (unsigned i = 0; i < LINES; i++)
        if (lines[i])
            end_line(lines[i]);
    return (sum + joined + long_ones) & 1;
}
