/* A cache of pages: entries are found by a hash of their key, and the one that was used longest ago is evicted. */
#include "draw.h"
#include "heap.h"
#include "machine.h"

#define CHAINS 8
#define MOST_ENTRIES 10
#define NOTES 4
#define ASKED 500

struct page {
    unsigned version;
    unsigned bytes;
    const unsigned *body;
};

struct entry {
    unsigned key;
    unsigned used_at;
    struct page *page;
    struct entry *next;
    struct entry *older;
    struct entry *newer;
};

static struct entry *chains[CHAINS], *newest, *oldest;
static char *notes[NOTES];
static unsigned entries, hits, misses;
static const unsigned body[16] = {3, 1, 4, 1, 5, 9, 2, 6, 5, 3, 5, 8, 9, 7, 9, 3};

static void unlink_age(struct entry *entry)
{
    if (entry->newer)
        entry->newer->older = entry->older;
    else
        newest = entry->older;
    if (entry->older)
        entry->older->newer = entry->newer;
    else
        oldest = entry->newer;
}

static void make_newest(struct entry *entry)
{
    entry->older = newest;
    entry->newer = 0;
    if (newest)
        newest->newer = entry;
    else
        oldest = entry;
    newest = entry;
}

static struct entry *find(unsigned key)
{
    struct entry *entry = chains[key % CHAINS];
    while (entry && entry->key != key)
        entry = entry->next;
    return entry;
}

static void evict(struct entry *entry)
{
    struct entry **link = &chains[entry->key % CHAINS];
    unlink_age(entry);
    if (*link == entry)
        *link = entry->next;
    entries--;
    give(entry->page);
    give(entry);
}

static struct page *load_page(unsigned key)
{
    struct page *page = take(sizeof *page);
    page->version = 1;
    page->bytes = 100 + key;
    page->body = &body[key % 16];
    return page;
}

static struct entry *insert(unsigned key, unsigned now)
{
    if (entries == MOST_ENTRIES)
        evict(oldest);
    struct entry *entry = take(sizeof *entry);
    entry->key = key;
    entry->used_at = now;
    entry->page = load_page(key);
    entry->next = chains[key % CHAINS];
    chains[key % CHAINS] = entry;
    make_newest(entry);
    entries++;
    return entry;
}

static void trim(unsigned most)
{
    while (entries > most)
        evict(oldest);
}

static void note_miss(unsigned key)
{
    char *note = take(24);
    *put_number(put_text(note, "no page of number "), key) = 0;
    if (notes[misses % NOTES])
        give(notes[misses % NOTES]);
    notes[misses % NOTES] = note;
}

static unsigned read_page(unsigned key, unsigned now)
{
    struct entry *entry = find(key);
    if (!entry) {
        misses++;
        note_miss(key);
        entry = insert(key, now);
    } else {
        hits++;
        unlink_age(entry);
        make_newest(entry);
        entry->used_at = now;
    }
    return entry->page->version + *entry->page->body;
}

int main(void)
{
    unsigned sum = 0;

    for (unsigned now = 0; now < ASKED; now++) {
        sum += read_page(draw(now < 200 ? 9 : 24), now);
        if (now % 32 == 31)
            trim(MOST_ENTRIES / 2);
    }
    return (sum + hits + misses) & 1;
}
