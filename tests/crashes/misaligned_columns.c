/* Rows of a table are packed: each column has a width, and the place of each is worked out when the table is made. */
#include "draw.h"
#include "machine.h"

#define MOST_COLUMNS 8
#define ROWS 16
#define ROOM 2048

struct column {
    unsigned char width;
    unsigned char is_key;
    unsigned short place;
};

struct table {
    struct column columns[MOST_COLUMNS];
    unsigned count;
    unsigned row_size;
    unsigned char *rows;
};

static unsigned room[ROOM / 4];
static unsigned used, tables;

static unsigned rounded(unsigned size, unsigned width)
{
    return (size + width - 1) / width * width;
}

__attribute__((noinline)) static void add_column(struct table *table, unsigned width, unsigned is_key)
{
    struct column *column = &table->columns[table->count++];
    column->width = width;
    column->is_key = is_key;
    if (is_key)
        table->row_size = rounded(table->row_size, width);
    column->place = table->row_size;
    table->row_size += width;
}

static void finish(struct table *table)
{
    table->row_size = rounded(table->row_size, 4);
    if (used + table->row_size * ROWS > ROOM)
        used = 0;
    table->rows = (unsigned char *)room + used;
    used += table->row_size * ROWS;
    tables++;
}

static void *cell(const struct table *table, unsigned row, unsigned column)
{
    return table->rows + row * table->row_size + table->columns[column].place;
}

static void set(const struct table *table, unsigned row, unsigned column, unsigned value)
{
    void *to = cell(table, row, column);
    if (table->columns[column].width == 1)
        *(unsigned char *)to = value;
    else if (table->columns[column].width == 2)
        *(unsigned short *)to = value;
    else
        *(unsigned *)to = value;
}

static unsigned get(const struct table *table, unsigned row, unsigned column)
{
    const void *from = cell(table, row, column);
    switch (table->columns[column].width) {
    case 1:
        return *(const unsigned char *)from;
    case 2:
        return *(const unsigned short *)from;
    default:
        return *(const unsigned *)from;
    }
}

static unsigned fill(const struct table *table)
{
    unsigned sum = 0;
    for (unsigned row = 0; row < ROWS; row++)
        for (unsigned column = 0; column < table->count; column++)
            set(table, row, column, draw(60000));
    for (unsigned row = 0; row < ROWS; row++)
        for (unsigned column = 0; column < table->count; column++)
            sum += get(table, row, column);
    return sum;
}

static unsigned make(unsigned kind)
{
    struct table table;
    table.count = table.row_size = 0;
    add_column(&table, 4, 1);
    if (kind % 3 == 1)
        add_column(&table, 2, 0);
    add_column(&table, kind % 3 == 1 ? 2 : 4, 0);
    add_column(&table, 1, 1);
    if (kind % 7 == 6)
        add_column(&table, 2, 0);
    finish(&table);
    return fill(&table);
}

int main(void)
{
    unsigned sum = 0;

    for (unsigned i = 0; i < 20; i++)
        sum ^= make(i);
    return (sum + tables) & 1;
}
