/* Matrices are transposed, multiplied and brought to a power; their rows and traces are printed. */
#include "draw.h"
#include "machine.h"

#define SIZE 4
#define MATRICES 5
#define MODULUS 10007u

struct matrix {
    unsigned cells[SIZE][SIZE];
};

static struct matrix matrices[MATRICES];
static char text[128];

static void fill(struct matrix *matrix)
{
    for (unsigned row = 0; row < SIZE; row++)
        for (unsigned column = 0; column < SIZE; column++)
            matrix->cells[row][column] = draw(10);
}

static void set_unit(struct matrix *matrix)
{
    for (unsigned row = 0; row < SIZE; row++)
        for (unsigned column = 0; column < SIZE; column++)
            matrix->cells[row][column] = row == column;
}

static void multiply(struct matrix *to, const struct matrix *one, const struct matrix *other)
{
    struct matrix product;
    for (unsigned row = 0; row < SIZE; row++)
        for (unsigned column = 0; column < SIZE; column++) {
            unsigned sum = 0;
            for (unsigned i = 0; i < SIZE; i++)
                sum += one->cells[row][i] * other->cells[i][column];
            product.cells[row][column] = sum % MODULUS;
        }
    *to = product;
}

static void raise(struct matrix *to, const struct matrix *base, unsigned power)
{
    struct matrix square = *base;
    set_unit(to);
    while (power > 1) {
        if (power % 2)
            multiply(to, to, &square);
        multiply(&square, &square, &square);
        power /= 2;
    }
}

static void transpose(struct matrix *matrix)
{
    for (unsigned row = 0; row < SIZE; row++)
        for (unsigned column = row + 1; column < SIZE; column++) {
            unsigned cell = matrix->cells[row][column];
            matrix->cells[row][column] = matrix->cells[column][row];
            matrix->cells[column][row] = cell;
        }
}

static unsigned trace_of(const struct matrix *matrix)
{
    unsigned sum = 0;
    for (unsigned i = 0; i < SIZE; i++)
        sum += matrix->cells[i][i];
    return sum % MODULUS;
}

static char *put_row(char *to, const unsigned *cells)
{
    for (unsigned column = 0; column < SIZE; column++) {
        to = put_number(to, cells[column]);
        *to++ = column + 1 < SIZE ? ' ' : '\n';
    }
    return to;
}

static void print(const char *name, const struct matrix *matrix)
{
    char *end = put_text(text, name);
    end = put_number(put_text(end, ", trace "), trace_of(matrix));
    *end++ = '\n';
    for (unsigned row = 0; row < SIZE; row++)
        end = put_row(end, matrix->cells[row]);
    write_all(STREAM_OUT, text, end - text);
}

int main(void)
{
    struct matrix product, power;

    for (unsigned i = 0; i < MATRICES; i++)
        fill(&matrices[i]);
    transpose(&matrices[2]);
    print("second", &matrices[1]);
    print("third turned", &matrices[2]);
    multiply(&product, &matrices[0], &matrices[1]);
    print("product", &product);
    raise(&power, &matrices[3], 5);
    print("fifth power", &power);
    raise(&power, &matrices[4], 8);
    print("eighth power", &power);
    return 0;
}
