/* A table of words that grows and shrinks with the number of its words: the place of a word is its hash modulo the
   number of chains. */
#include "draw.h"
#include "heap.h"
#include "machine.h"

#define KEYS 60
#define STEPS 700

struct word {
    unsigned key;
    unsigned times;
    struct word *next;
};

struct table {
    unsigned chains;
    unsigned words;
    struct word **heads;
};

static struct table table;
static unsigned moves;

static unsigned hash(unsigned key)
{
    key ^= key >> 7;
    key *= 2654435761u;
    return key ^ key >> 15;
}

static struct word **place_of(unsigned key)
{
    return &table.heads[hash(key) % table.chains];
}

static void put_into(struct word **heads, unsigned chains, struct word *word)
{
    struct word **place = &heads[hash(word->key) % chains];
    word->next = *place;
    *place = word;
}

static void resize(unsigned chains)
{
    struct word **heads = take(64);
    for (unsigned i = 0; i < chains; i++)
        heads[i] = 0;
    for (unsigned i = 0; i < table.chains; i++)
        for (struct word *word = table.heads[i], *next; word; word = next) {
            next = word->next;
            put_into(heads, chains, word);
            moves++;
        }
    if (table.heads)
        give(table.heads);
    table.heads = heads;
    table.chains = chains;
}

static struct word *find(unsigned key)
{
    struct word *word = *place_of(key);
    while (word && word->key != key)
        word = word->next;
    return word;
}

static void add(unsigned key)
{
    struct word *word = find(key);
    if (!word) {
        if (table.words >= 2 * table.chains && table.chains < 16)
            resize(2 * table.chains);
        word = take(sizeof *word);
        word->key = key;
        word->times = 0;
        put_into(table.heads, table.chains, word);
        table.words++;
    }
    word->times++;
}

static void drop(unsigned key)
{
    struct word **link = place_of(key);
    while (*link && (*link)->key != key)
        link = &(*link)->next;
    if (*link) {
        struct word *word = *link;
        *link = word->next;
        give(word);
        table.words--;
        if (table.words < table.chains / 2 + 1)
            resize(table.chains / 2);
    }
}

static unsigned count(unsigned first, unsigned behind)
{
    unsigned times = 0;
    for (unsigned key = first; key < behind; key++) {
        struct word *word = find(key);
        if (word)
            times += word->times;
    }
    return times;
}

int main(void)
{
    unsigned sum = 0;

    resize(4);
    for (unsigned step = 0; step < STEPS; step++) {
        add(draw(KEYS));
        if (step > 300)
            drop(draw(KEYS));
        if (step % 100 == 99)
            sum += count(0, KEYS);
        if (step == 600)
            for (unsigned key = 0; key < KEYS; key++)
                drop(key);
    }
    return (sum + moves) & 1;
}
