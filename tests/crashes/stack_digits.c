/* A table of registers is written in several bases, as a small monitor does. */
#include "draw.h"
#include "machine.h"

#define REGISTERS 12
#define ROUNDS 9
#define LONGEST 16

enum form { DECIMAL, HEXADECIMAL, OCTAL, BINARY };

struct field {
    const char *name;
    unsigned value;
    enum form form;
};

struct page {
    char text[400];
    unsigned length;
    unsigned lines;
};

static struct field fields[REGISTERS];
static struct page page;
static const unsigned char base_of[] = {10, 16, 8, 2};
static const char *const names[] = {"status", "cause", "mask", "level", "frame", "limit", "clock", "match", "power", "reset", "input", "output"};

static void set_up(void)
{
    for (unsigned i = 0; i < REGISTERS; i++) {
        fields[i].name = names[i];
        fields[i].value = draw(5000);
        fields[i].form = i % 4;
    }
}

static void add(char letter)
{
    if (page.length < sizeof page.text)
        page.text[page.length++] = letter;
}

static void add_text(const char *text)
{
    while (*text)
        add(*text++);
}

__attribute__((noinline)) static unsigned digits_of(char *to, unsigned value, unsigned base)
{
    unsigned count = 0;
    do {
        to[count++] = "0123456789abcdef"[value % base];
        value /= base;
    } while (value);
    return count;
}

__attribute__((noinline)) static void add_number(unsigned value, unsigned base)
{
    char digits[LONGEST];
    unsigned count = digits_of(digits, value, base);
    while (count)
        add(digits[--count]);
}

static void add_field(const struct field *field)
{
    add_text(field->name);
    add(' ');
    add_number(field->value, base_of[field->form]);
    add('\n');
    page.lines++;
}

static void step(unsigned round)
{
    for (unsigned i = 0; i < REGISTERS; i++) {
        unsigned change = draw(900);
        if (i % 4 == 3 && round > 5)
            change <<= 20;
        fields[i].value += change;
    }
}

static unsigned show(void)
{
    unsigned sum = 0;
    page.length = page.lines = 0;
    for (unsigned i = 0; i < REGISTERS; i++)
        add_field(&fields[i]);
    for (unsigned i = 0; i < page.length; i++)
        sum = sum * 31 + page.text[i];
    return sum;
}

int main(void)
{
    unsigned sum = 0;

    set_up();
    for (unsigned round = 0; round < ROUNDS; round++) {
        step(round);
        sum ^= show();
    }
    return sum & 1;
}
