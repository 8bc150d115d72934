/* A file of records in memory: an index has the place of each record, and records are cut, joined and summed. */
#include "draw.h"
#include "machine.h"

#define FILE_SIZE 2048
#define RECORDS 40

struct place {
    unsigned short begin;
    unsigned short words;
};

static unsigned file[FILE_SIZE / 4];
static struct place places[RECORDS];
static unsigned used, records;

static unsigned *words_of(const struct place *place)
{
    return (unsigned *)((char *)file + place->begin);
}

static int add_record(unsigned words)
{
    struct place *place = &places[records];
    if (records == RECORDS || used + 4 * words > FILE_SIZE)
        return 0;
    place->begin = used;
    place->words = words;
    for (unsigned i = 0; i < words; i++)
        words_of(place)[i] = draw(1000);
    used += 4 * words;
    records++;
    return 1;
}

static void cut_front(struct place *place, unsigned words)
{
    if (words < place->words) {
        place->begin += 4 * words;
        place->words -= words;
    }
}

static void cut_half(struct place *place)
{
    unsigned half = place->words / 2;
    place->begin += 2 * place->words;
    place->words -= half;
}

static void exchange(unsigned a, unsigned b)
{
    struct place place = places[a];
    places[a] = places[b];
    places[b] = place;
}

static unsigned sum_of(const struct place *place)
{
    unsigned sum = 0;
    const unsigned *words = words_of(place);
    for (unsigned i = 0; i < place->words; i++)
        sum += words[i];
    return sum;
}

static void sort_by_length(void)
{
    for (unsigned i = 1; i < records; i++)
        for (unsigned j = i; j && places[j - 1].words > places[j].words; j--)
            exchange(j - 1, j);
}

static unsigned longest(void)
{
    unsigned best = 0;
    for (unsigned i = 1; i < records; i++)
        if (places[i].words > places[best].words)
            best = i;
    return best;
}

static unsigned average_length(void)
{
    unsigned words = 0;
    for (unsigned i = 0; i < records; i++)
        words += places[i].words;
    return records ? words / records : 0;
}

static unsigned check_sums(void)
{
    unsigned sum = 0;
    for (unsigned i = 0; i < records; i++)
        sum = sum * 3 + sum_of(&places[i]);
    return sum;
}

int main(void)
{
    unsigned sum = 0;

    while (add_record(4 + 2 * draw(8)))
        ;
    for (unsigned round = 0; round < 30; round++) {
        cut_front(&places[draw(records)], draw(3));
        sum += average_length();
        if (round > 15)
            cut_half(&places[longest()]);
        sort_by_length();
        if (round % 10 == 9)
            sum += check_sums();
    }
    return sum & 1;
}
