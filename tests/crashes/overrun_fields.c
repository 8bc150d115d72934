/* Lines of values with commas between are split into fields, and each column's values are added up. */
#include "draw.h"

#define COLUMNS 8
#define LINES 120
#define WIDTH 96

struct field {
    const char *begin;
    unsigned length;
};

struct splitter {
    char line[WIDTH];
    struct field fields[COLUMNS];
    unsigned *sums;
    unsigned count;
    unsigned lines;
    unsigned empty;
};

static unsigned sums[COLUMNS], largest[COLUMNS];
static struct splitter splitter;

static char *write_number(char *to, unsigned number)
{
    char digits[10];
    unsigned count = 0;
    do {
        digits[count++] = '0' + number % 10;
        number /= 10;
    } while (number);
    while (count)
        *to++ = digits[--count];
    return to;
}

static unsigned columns_of(unsigned number)
{
    return number < 70 ? 3 + draw(5) : 3 + draw(7);
}

static void make_line(unsigned number)
{
    char *to = splitter.line;
    unsigned columns = columns_of(number);
    for (unsigned i = 0; i < columns; i++) {
        if (i)
            *to++ = ',';
        if (draw(9))
            to = write_number(to, draw(5000));
    }
    *to = 0;
}

static void add_field(const char *begin, const char *end)
{
    struct field *field = &splitter.fields[splitter.count++];
    field->begin = begin;
    field->length = end - begin;
    if (begin == end)
        splitter.empty++;
}

static void split(void)
{
    const char *begin = splitter.line, *at;
    splitter.count = 0;
    for (at = begin; *at; at++) {
        if (*at == ',') {
            add_field(begin, at);
            begin = at + 1;
        }
    }
    add_field(begin, at);
    splitter.lines++;
}

static unsigned value_of(const struct field *field)
{
    unsigned value = 0;
    for (unsigned i = 0; i < field->length; i++)
        value = value * 10 + (field->begin[i] - '0');
    return value;
}

static void add_up(void)
{
    for (unsigned i = 0; i < splitter.count && i < COLUMNS; i++) {
        unsigned value = value_of(&splitter.fields[i]);
        splitter.sums[i] += value;
        if (value > largest[i])
            largest[i] = value;
    }
}

int main(void)
{
    unsigned sum = 0;

    splitter.sums = sums;
    for (unsigned i = 0; i < LINES; i++) {
        make_line(i);
        split();
        add_up();
    }
    for (unsigned i = 0; i < COLUMNS; i++)
        sum += sums[i] + largest[i];
    return (sum + splitter.empty + splitter.lines) & 1;
}
