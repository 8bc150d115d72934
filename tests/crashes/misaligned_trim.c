/* Records and texts of a parser share one arena. A text is given the most that it can need, and trimmed when its
   length is known; `release` takes back all that came after a mark. */
#include "draw.h"
#include "machine.h"

#define ARENA 8192
#define LONGEST 24
#define LINES 120

struct entry {
    unsigned number;
    unsigned value;
    char *name;
    struct entry *next;
};

static unsigned char arena[ARENA] __attribute__((aligned(8)));
static unsigned used;
static struct entry *entries;
static unsigned refused, trimmed;

static void *take(unsigned size)
{
    void *place = arena + used;
    if (used + size > ARENA)
        return 0;
    used += (size + 3) & ~3u;
    return place;
}

static unsigned mark(void)
{
    return used;
}

static void release(unsigned to)
{
    used = to;
}

static void trim(const char *end)
{
    unsigned to = end - (const char *)arena;
    trimmed += used - to;
    used = to;
}

static unsigned read_number(const char **from)
{
    unsigned number = 0;
    while (**from >= '0' && **from <= '9')
        number = 10 * number + *(*from)++ - '0';
    return number;
}

static char *read_name(const char **from)
{
    char *name = take(LONGEST), *end = name;
    if (!name)
        return 0;
    while (**from && **from != ' ' && end < name + LONGEST - 1)
        *end++ = *(*from)++;
    *end++ = 0;
    if (end < name + LONGEST / 2)
        trim(end);
    return name;
}

static struct entry *new_entry(unsigned number)
{
    struct entry *entry = take(sizeof *entry);
    if (!entry)
        return 0;
    entry->number = number;
    entry->value = 0;
    entry->name = 0;
    return entry;
}

static int read_line(const char *line, unsigned number)
{
    unsigned before = mark();
    struct entry *entry = new_entry(number);
    if (!entry)
        return 0;
    entry->name = read_name(&line);
    if (!entry->name || *line++ != ' ') {
        release(before);
        return 0;
    }
    entry->value = read_number(&line);
    entry->next = entries;
    entries = entry;
    return 1;
}

static const char *line_of(unsigned number)
{
    static const char *const lines[] = {
        "length_of_the_hull 120", "beam_over_the_frames 18", "draught_when_loaded 6", "no_value", "tonnage_by_register 4200",
        "speed 14",
    };
    return lines[number < 60 ? draw(5) : draw(6)];
}

static unsigned sum_up(void)
{
    unsigned sum = 0;
    for (const struct entry *entry = entries; entry; entry = entry->next)
        sum += entry->value * entry->number + entry->name[0];
    return sum;
}

int main(void)
{
    unsigned sum = 0;

    for (unsigned i = 0; i < LINES; i++) {
        if (!read_line(line_of(i), i))
            refused++;
        if (i % 30 == 29)
            sum += sum_up();
    }
    return (sum + refused + trimmed) & 1;
}
