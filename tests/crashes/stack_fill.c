/* Hart 0 fills regions of a map, hart 1 draws what was filled so far. Each has a stack of 64 KiB. */
#include "draw.h"
#include "machine.h"

#define WIDTH 64
#define HEIGHT 64
#define WALL 255

struct region {
    unsigned number;
    unsigned cells;
    unsigned left, right, top, bottom;
};

static unsigned char map[WIDTH * HEIGHT];
static struct region regions[64];
static volatile unsigned filled, over;

static void build_walls(void)
{
    for (unsigned y = 0; y < HEIGHT; y++)
        for (unsigned x = 0; x < WIDTH; x++) {
            int is_edge = x == 0 || y == 0 || x == WIDTH - 1 || y == HEIGHT - 1;
            int is_grid = (x % 8 == 0 || y % 8 == 0) && (x < 24 || y < 24);
            if (is_edge || is_grid)
                map[y * WIDTH + x] = WALL;
        }
}

static void stretch(struct region *region, unsigned x, unsigned y)
{
    if (x < region->left)
        region->left = x;
    if (x > region->right)
        region->right = x;
    if (y < region->top)
        region->top = y;
    if (y > region->bottom)
        region->bottom = y;
}

__attribute__((noinline)) static unsigned fill(struct region *region, unsigned x, unsigned y)
{
    unsigned char *cell = &map[y * WIDTH + x];
    if (*cell)
        return 0;
    *cell = region->number;
    stretch(region, x, y);
    unsigned cells = 1;
    cells += fill(region, x + 1, y);
    cells += fill(region, x, y + 1);
    cells += fill(region, x - 1, y);
    cells += fill(region, x, y - 1);
    return cells;
}

static void find_regions(void)
{
    unsigned number = 0;
    for (unsigned y = 0; y < HEIGHT; y++)
        for (unsigned x = 0; x < WIDTH && number < 63; x++)
            if (!map[y * WIDTH + x]) {
                struct region *region = &regions[number];
                region->number = ++number;
                region->left = x;
                region->top = y;
                region->cells = fill(region, x, y);
                filled = number;
            }
}

struct view {
    const unsigned char *line;
    unsigned shades[4];
};

__attribute__((noinline)) static unsigned draw_line(struct view *view, unsigned y)
{
    unsigned sum = 0;
    view->line = &map[y * WIDTH];
    for (unsigned x = 0; x < WIDTH; x++)
        sum += view->shades[view->line[x] % 4];
    return sum;
}

__attribute__((noinline)) static unsigned draw_map(struct view *view)
{
    unsigned sum = 0;
    for (unsigned y = 0; y < HEIGHT && !over; y++)
        sum = sum * 7 + draw_line(view, y);
    return sum;
}

int other_harts(int hart, int harts)
{
    struct view view = {map, {1, 3, 5, 7}};
    unsigned sum = 0;
    (void)harts;
    while (hart == 1 && !over)
        sum += draw_map(&view) + filled;
    return sum & 1;
}

int main(void)
{
    unsigned sum = 0;

    build_walls();
    find_regions();
    for (unsigned i = 0; i < filled; i++)
        sum += regions[i].cells * (regions[i].right - regions[i].left);
    over = 1;
    return sum & 1;
}
