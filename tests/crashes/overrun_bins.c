/* Letters are counted in texts: each shelf of a library has bins for letters, and a keeper who can be asked. */
#include "draw.h"
#include "machine.h"

#define SHELVES 4
#define BINS 27
#define TEXTS 30

struct keeper {
    const char *name;
    unsigned asked;
};

struct shelf {
    unsigned short bins[BINS];
    unsigned short texts;
    unsigned letters;
    struct keeper *keeper;
    unsigned longest;
    unsigned cleared;
    unsigned char kinds[20];
};

static struct keeper keepers[] = {{"Anna", 0}, {"Bert", 0}, {"Clara", 0}};
static struct shelf shelves[SHELVES];
static char text[96];
static const char letters[] = "eeeeeeeeetttttttaaaaaaooooooiiiiinnnnnsssshhhrrrddlluuc mmwwffggyypp bvkxjqz ";

static void wipe(void *place, unsigned bytes)
{
    for (unsigned char *byte = place; bytes--; byte++)
        *byte = 0;
}

static void clear_bins(struct shelf *shelf, unsigned short *bins, unsigned count)
{
    wipe(bins, count * sizeof bins);
    shelf->cleared++;
    shelf->longest = 0;
    shelf->letters = 0;
    shelf->texts = 0;
}

static void open(struct shelf *shelf, unsigned number)
{
    wipe(shelf, sizeof *shelf);
    shelf->keeper = &keepers[number % 3];
    for (unsigned i = 0; i < sizeof shelf->kinds; i++)
        shelf->kinds[i] = number + i;
}

static unsigned bin_of(char letter)
{
    return letter == ' ' ? 0 : letter - 'a' + 1;
}

static void read_text(struct shelf *shelf)
{
    unsigned length = 20 + draw(60);
    for (unsigned i = 0; i < length; i++)
        shelf->bins[bin_of(letters[draw(sizeof letters - 1)])]++;
    shelf->letters += length;
    shelf->texts++;
    if (length > shelf->longest)
        shelf->longest = length;
}

static unsigned place_of_most(const struct shelf *shelf)
{
    unsigned place = 1;
    for (unsigned bin = 2; bin < BINS; bin++)
        if (shelf->bins[bin] > shelf->bins[place])
            place = bin;
    return place;
}

static void ask(struct shelf *shelf)
{
    shelf->keeper->asked++;
}

static void print(struct shelf *shelf)
{
    unsigned most = place_of_most(shelf);
    char *end = put_number(text, shelf->texts);
    end = put_number(put_text(end, " texts, "), shelf->letters);
    end = put_text(end, " letters, most often ");
    *end++ = 'a' + most - 1;
    end = put_number(put_text(end, ", longest "), shelf->longest);
    *end++ = '\n';
    write_all(STREAM_OUT, text, end - text);
    ask(shelf);
}

int main(void)
{
    unsigned asked = 0;

    for (unsigned i = 0; i < SHELVES; i++)
        open(&shelves[i], i);
    for (unsigned i = 0; i < TEXTS; i++)
        read_text(&shelves[draw(SHELVES)]);
    for (unsigned i = 0; i < SHELVES; i++)
        print(&shelves[i]);
    for (unsigned i = 0; i < SHELVES; i += 2)
        clear_bins(&shelves[i], shelves[i].bins, BINS);
    for (unsigned i = 0; i < TEXTS; i++)
        read_text(&shelves[draw(SHELVES)]);
    for (unsigned i = 0; i < SHELVES; i++)
        print(&shelves[i]);
    for (unsigned i = 0; i < 3; i++)
        asked += keepers[i].asked;
    return asked == 2 * SHELVES;
}
