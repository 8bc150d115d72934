/* Words are split from lines, stemmed, and counted in a table of fixed cells; the most frequent ones are told. */
#include "draw.h"
#include "machine.h"

#define CELLS 64
#define LONGEST 10
#define LINES 90

struct cell {
    char word[LONGEST];
    unsigned short times;
    struct cell *next;
};

static struct cell cells[CELLS];
static struct cell *chains[4];
static unsigned used;
static const char *const lines[] = {
    "the ships were in the harbour", "a storm was coming over the sea", "they were mending the nets and singing",
    "nobody saw the lights at the mole", "the harbour master was sleeping", "counterrevolutionary it was the wind",
};

static unsigned hash(const char *word)
{
    unsigned sum = 7;
    while (*word)
        sum = sum * 31 + *word++;
    return sum % 4;
}

static int is_same(const char *one, const char *other)
{
    while (*one && *one == *other) {
        one++;
        other++;
    }
    return *one == *other;
}

static unsigned length_of(const char *word)
{
    unsigned length = 0;
    while (word[length])
        length++;
    return length;
}

static void stem(char *word)
{
    unsigned length = length_of(word);
    if (length > 5 && is_same(word + length - 3, "ing"))
        word[length - 3] = 0;
    else if (length > 3 && word[length - 1] == 's')
        word[length - 1] = 0;
}

static struct cell *find(const char *word)
{
    struct cell *cell = chains[hash(word)];
    while (cell && !is_same(cell->word, word))
        cell = cell->next;
    return cell;
}

static struct cell *new_cell(const char *word)
{
    struct cell *cell = &cells[used++ % CELLS];
    unsigned chain = hash(word);
    cell->times = 0;
    cell->next = chains[chain];
    chains[chain] = cell;
    char *to = cell->word;
    while ((*to++ = *word++))
        ;
    return cell;
}

static void count(char *word)
{
    stem(word);
    struct cell *cell = find(word);
    if (!cell)
        cell = new_cell(word);
    cell->times++;
}

static void split(const char *line)
{
    char word[24];
    unsigned length = 0;
    for (;; line++) {
        if (*line && *line != ' ') {
            word[length++] = *line;
            continue;
        }
        word[length] = 0;
        if (length)
            count(word);
        length = 0;
        if (!*line)
            return;
    }
}

static unsigned most_frequent(void)
{
    unsigned most = 0;
    for (unsigned i = 0; i < 4; i++)
        for (const struct cell *cell = chains[i]; cell; cell = cell->next)
            if (cell->times > most)
                most = cell->times;
    return most;
}

int main(void)
{
    unsigned sum = 0;

    for (unsigned i = 0; i < LINES; i++) {
        split(lines[draw(i < 60 ? 5 : 6)]);
        if (i % 15 == 14)
            sum += most_frequent();
    }
    return sum & 1;
}
