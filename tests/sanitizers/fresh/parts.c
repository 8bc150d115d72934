/* Spare parts have names with their number, and are listed by weight. */
#include <stdio.h>
#include <stdlib.h>

struct part {
    char name[10];
    unsigned short grams;
    struct part *heavier;
};

static struct part *lightest;

static struct part *new_part(const char *sort, unsigned number, unsigned grams)
{
    struct part *part = malloc(sizeof *part);

    part->grams = grams;
    sprintf(part->name, "%s-%u", sort, number);
    return part;
}

static void list(struct part *part)
{
    struct part **at = &lightest;

    while (*at && (*at)->grams < part->grams)
        at = &(*at)->heavier;
    part->heavier = *at;
    *at = part;
}

int main(void)
{
    static const char *const sorts[] = {"bolt", "nut", "washer", "spring"};
    unsigned before = 0;

    for (unsigned i = 0; i < 120; i++)
        list(new_part(sorts[i % 4], i * 11, 20 + i * 37 % 90));
    for (struct part *part = lightest; part; part = part->heavier) {
        if (part->grams < before)
            printf("%s is out of order\n", part->name);
        before = part->grams;
    }
    return 0;
}
