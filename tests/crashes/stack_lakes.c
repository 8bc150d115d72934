/* A map of heights. Lakes are found and measured; the shore in the south is printed. */
#include "draw.h"
#include "machine.h"

#define ROWS 460
#define COLUMNS 480
#define LAKES 4
#define LEVEL 40
#define SEEN 0x8000

struct lake {
    const char *name;
    unsigned row;
    unsigned column;
    unsigned rows;
    unsigned columns;
    unsigned size;
    unsigned deepest;
};

static unsigned map[ROWS][COLUMNS];
static struct lake lakes[LAKES] = {
    {"Round Pond", 20, 30, 9, 11, 0, 0}, {"Mill Water", 60, 200, 14, 30, 0, 0},
    {"Long Lake", 130, 40, 70, 68, 0, 0}, {"Swan Lake", 300, 300, 12, 25, 0, 0},
};
static char text[128];

static void raise_land(void)
{
    for (unsigned row = 0; row < ROWS; row++)
        for (unsigned column = 0; column < COLUMNS; column++)
            map[row][column] = LEVEL + 1 + ((row * 7) ^ (column * 3)) % 64;
}

static void dig(const struct lake *lake)
{
    for (unsigned row = 0; row < lake->rows; row++)
        for (unsigned column = 0; column < lake->columns; column++)
            if (draw(16) || column == lake->columns / 2)
                map[lake->row + row][lake->column + column] = LEVEL - 1 - draw(30);
}

static int is_water(unsigned row, unsigned column)
{
    return map[row][column] < LEVEL;
}

static void visit(struct lake *lake, unsigned row, unsigned column)
{
    unsigned depth = LEVEL - map[row][column];
    lake->size++;
    if (depth > lake->deepest)
        lake->deepest = depth;
    map[row][column] |= SEEN;
}

static void flood(struct lake *lake, unsigned row, unsigned column)
{
    if (row >= ROWS || column >= COLUMNS || !is_water(row, column))
        return;
    visit(lake, row, column);
    flood(lake, row, column + 1);
    flood(lake, row + 1, column);
    flood(lake, row, column - 1);
    flood(lake, row - 1, column);
}

static void dry(struct lake *lake)
{
    for (unsigned row = 0; row < lake->rows; row++)
        for (unsigned column = 0; column < lake->columns; column++)
            map[lake->row + row][lake->column + column] &= ~SEEN;
}

static unsigned highest_of(const unsigned *heights)
{
    unsigned highest = 0;
    for (unsigned column = 0; column < COLUMNS; column++)
        if (heights[column] > highest)
            highest = heights[column];
    return highest;
}

static void print(const struct lake *lake)
{
    char *end = put_text(text, lake->name);
    end = put_number(put_text(end, ": "), lake->size);
    end = put_number(put_text(end, " fields, deepest "), lake->deepest);
    *end++ = '\n';
    write_all(STREAM_OUT, text, end - text);
}

static void print_shore(unsigned row)
{
    char *end = put_number(put_text(text, "row "), row);
    end = put_number(put_text(end, ": highest "), highest_of(map[row]));
    end = put_number(put_text(end, ", in the west "), map[row][0]);
    *end++ = '\n';
    write_all(STREAM_OUT, text, end - text);
}

int main(void)
{
    raise_land();
    for (unsigned i = 0; i < LAKES; i++)
        dig(&lakes[i]);
    for (unsigned i = 0; i < LAKES; i++) {
        flood(&lakes[i], lakes[i].row, lakes[i].column + lakes[i].columns / 2);
        print(&lakes[i]);
    }
    for (unsigned i = 0; i < LAKES; i++)
        dry(&lakes[i]);
    for (unsigned row = ROWS - 4; row < ROWS; row++)
        print_shore(row);
    return 0;
}
