/* Records of a log are written as lines: the texts in quotes, with a mark before each letter that needs one. */
#include "draw.h"

#define RECORDS 150
#define LONGEST 40
#define SIZE 8192

struct record {
    unsigned number;
    unsigned kind;
    char text[LONGEST + 1];
};

static char lines[SIZE];
static unsigned used, marks, wraps;

static const char letters[] = "abcdefghij klmnop\"qrst\\uvwxyz";

static void make_record(struct record *record, unsigned number)
{
    unsigned length = 4 + draw(LONGEST - 4), special = number > 90 ? 1 + draw(2) : 12;
    record->number = number;
    record->kind = draw(4);
    for (unsigned i = 0; i < length; i++)
        record->text[i] = draw(special) ? letters[draw(10)] : draw(2) ? '"' : '\\';
    record->text[length] = 0;
}

static int needs_mark(char letter)
{
    return letter == '"' || letter == '\\' || letter < ' ';
}

__attribute__((noinline)) static unsigned quote(char *to, const char *text)
{
    char *at = to;
    *at++ = '"';
    for (; *text; text++) {
        if (needs_mark(*text)) {
            *at++ = '\\';
            marks++;
        }
        *at++ = *text;
    }
    *at++ = '"';
    *at = 0;
    return at - to;
}

static void put(const char *text, unsigned length)
{
    if (used + length > SIZE) {
        used = 0;
        wraps++;
    }
    for (unsigned i = 0; i < length; i++)
        lines[used++] = text[i];
}

static unsigned put_count(unsigned number)
{
    char digits[10];
    unsigned count = sizeof digits;
    do {
        digits[--count] = '0' + number % 10;
        number /= 10;
    } while (number);
    put(digits + count, sizeof digits - count);
    return sizeof digits - count;
}

__attribute__((noinline)) static unsigned write_record(const struct record *record)
{
    char quoted[LONGEST + 5];
    unsigned length = quote(quoted, record->text);
    unsigned width = put_count(record->number);
    put(" ", 1);
    put(quoted, length);
    put("\n", 1);
    return length + width + 2;
}

static unsigned check(void)
{
    unsigned sum = 0;
    for (unsigned i = 0; i < used; i++)
        sum = sum * 31 + (unsigned char)lines[i];
    return sum;
}

int main(void)
{
    struct record record;
    unsigned written = 0;

    for (unsigned i = 0; i < RECORDS; i++) {
        make_record(&record, i);
        written += write_record(&record);
        if (i % 50 == 49)
            written ^= check();
    }
    return (written + marks + wraps) & 1;
}
