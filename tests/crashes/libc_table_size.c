/* A matrix in one block of malloc with a row of pointers; rows are added, sorted by their sums, and dropped. */
#include <stdlib.h>
#include <string.h>

#include "draw.h"

#define COLUMNS 6
#define STEPS 230

struct row {
    unsigned sum;
    unsigned cells[COLUMNS];
};

struct matrix {
    struct row **rows;
    unsigned used;
    unsigned room;
    unsigned dropped;
};

static struct matrix matrix;

static void grow(void)
{
    unsigned room = matrix.room + 8;
    struct row **rows = malloc(room * sizeof *rows);
    memcpy(rows, matrix.rows, matrix.used * sizeof *rows);
    free(matrix.rows);
    matrix.rows = rows;
    matrix.room = room;
}

static void shrink(void)
{
    if (matrix.room > 16 && matrix.used < matrix.room / 2) {
        matrix.room -= 8;
        matrix.rows = realloc(matrix.rows, matrix.room * 2);
    }
}

static struct row *new_row(void)
{
    struct row *row = calloc(1, sizeof *row);
    for (unsigned i = 0; i < COLUMNS; i++) {
        row->cells[i] = draw(1000);
        row->sum += row->cells[i];
    }
    return row;
}

static void add_row(void)
{
    if (matrix.used == matrix.room)
        grow();
    matrix.rows[matrix.used++] = new_row();
}

static void drop_row(unsigned at)
{
    free(matrix.rows[at]);
    matrix.rows[at] = matrix.rows[--matrix.used];
    matrix.dropped++;
    shrink();
}

static void sort_rows(void)
{
    for (unsigned i = 1; i < matrix.used; i++) {
        struct row *row = matrix.rows[i];
        unsigned at = i;
        while (at && matrix.rows[at - 1]->sum > row->sum) {
            matrix.rows[at] = matrix.rows[at - 1];
            at--;
        }
        matrix.rows[at] = row;
    }
}

static unsigned column_sum(unsigned column)
{
    unsigned sum = 0;
    for (unsigned i = 0; i < matrix.used; i++)
        sum += matrix.rows[i]->cells[column];
    return sum;
}

static char *note(unsigned number)
{
    char *text = malloc(32);
    strcpy(text, "sorted after step ");
    text[18] = '0' + number / 100;
    text[19] = '0' + number / 10 % 10;
    text[20] = '0' + number % 10;
    text[21] = 0;
    return text;
}

int main(void)
{
    static char *notes[8];
    unsigned sum = 0;

    for (unsigned step = 0; step < STEPS; step++) {
        if (step < 60 || draw(3) == 0)
            add_row();
        else if (matrix.used)
            drop_row(draw(matrix.used));
        if (step % 10 == 9) {
            sort_rows();
            free(notes[step / 10 % 8]);
            notes[step / 10 % 8] = note(step);
            sum += column_sum(step % COLUMNS);
        }
    }
    return sum & 1;
}
