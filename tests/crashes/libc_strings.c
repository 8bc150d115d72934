/* Texts are kept once each in a sorted list of pointers, which grows as it fills. */
#include <stdlib.h>
#include <string.h>

#include "draw.h"

#define TEXTS 260
#define LONGEST 10

struct list {
    char **texts;
    unsigned count;
    unsigned room;
    unsigned same;
};

static struct list list;

static void set_up(unsigned room)
{
    list.texts = malloc(room * sizeof *list.texts);
    list.room = room;
    list.count = 0;
    list.same = 0;
}

static void make_text(char *text)
{
    unsigned length = 1 + draw(LONGEST - 1);
    for (unsigned i = 0; i < length; i++)
        text[i] = 'a' + draw(length < 4 ? 5 : 26);
    text[length] = 0;
}

static unsigned place_of(const char *text)
{
    unsigned low = 0, high = list.count;
    while (low < high) {
        unsigned middle = (low + high) / 2;
        if (strcmp(list.texts[middle], text) < 0)
            low = middle + 1;
        else
            high = middle;
    }
    return low;
}

static char *copy_of(const char *text)
{
    char *copy = malloc(strlen(text) + 1);
    strcpy(copy, text);
    return copy;
}

static void grow(void)
{
    if (list.room < 64)
        list.room *= 2;
    else
        list.room += list.room / 2;
    list.texts = realloc(list.texts, list.room * 2);
}

static void insert(unsigned place, char *text)
{
    if (list.count == list.room)
        grow();
    memmove(&list.texts[place + 1], &list.texts[place], (list.count - place) * sizeof *list.texts);
    list.texts[place] = text;
    list.count++;
}

static const char *keep(const char *text)
{
    unsigned place = place_of(text);
    if (place < list.count && strcmp(list.texts[place], text) == 0) {
        list.same++;
        return list.texts[place];
    }
    insert(place, copy_of(text));
    return list.texts[place];
}

static void drop(unsigned place)
{
    free(list.texts[place]);
    list.count--;
    memmove(&list.texts[place], &list.texts[place + 1], (list.count - place) * sizeof *list.texts);
}

static unsigned sum_up(void)
{
    unsigned sum = 0;
    for (unsigned i = 0; i < list.count; i++)
        sum = sum * 3 + strlen(list.texts[i]);
    return sum;
}

int main(void)
{
    char text[LONGEST + 1];
    unsigned sum = 0;

    set_up(8);
    for (unsigned i = 0; i < TEXTS; i++) {
        make_text(text);
        sum += keep(text)[0];
        if (i % 20 == 19)
            drop(draw(list.count));
        if (i % 30 == 29)
            sum += sum_up();
    }
    return (sum + list.same) & 1;
}
