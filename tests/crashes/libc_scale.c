/* Pictures are made larger and smaller. A picture's points lie in one block, row by row. */
#include <stdlib.h>
#include <string.h>

#include "draw.h"

#define PICTURES 6
#define STEPS 40

typedef unsigned short size16;

struct picture {
    size16 width;
    size16 height;
    size16 bytes;
    unsigned *points;
    struct label *label;
};

struct label {
    char text[12];
    unsigned changes;
};

static struct picture *pictures[PICTURES];
static unsigned light, refused;

static unsigned *room_for(struct picture *picture, unsigned width, unsigned height)
{
    picture->width = width;
    picture->height = height;
    picture->bytes = width * height * sizeof *picture->points;
    picture->points = malloc(picture->bytes);
    return picture->points;
}

static void name(struct picture *picture, unsigned number)
{
    picture->label = malloc(sizeof *picture->label);
    memcpy(picture->label->text, "picture", 8);
    picture->label->text[7] = '0' + number % 10;
    picture->label->text[8] = 0;
    picture->label->changes = 0;
}

static struct picture *make(unsigned number)
{
    struct picture *picture = malloc(sizeof *picture);
    unsigned width = 6 + draw(12), height = 6 + draw(12), *points = room_for(picture, width, height);
    for (unsigned i = 0; i < width * height; i++)
        points[i] = draw(256);
    name(picture, number);
    return picture;
}

static unsigned *row_of(const struct picture *picture, unsigned row)
{
    return picture->points + row * picture->width;
}

static void copy_scaled(const struct picture *from, const struct picture *to, unsigned by)
{
    for (unsigned row = 0; row < to->height; row++) {
        const unsigned *source = row_of(from, row / by);
        unsigned *goal = row_of(to, row);
        for (unsigned column = 0; column < to->width; column++)
            goal[column] = source[column / by];
    }
}

static void enlarge(struct picture *picture, unsigned by)
{
    struct picture before = *picture;
    if (before.width * by > 240 || before.height * by > 160) {
        refused++;
        return;
    }
    if (!room_for(picture, before.width * by, before.height * by)) {
        *picture = before;
        refused++;
        return;
    }
    copy_scaled(&before, picture, by);
    free(before.points);
    picture->label->changes++;
}

static void reduce(struct picture *picture)
{
    struct picture before = *picture;
    if (before.width < 16 || before.height < 16)
        return;
    room_for(picture, before.width / 2, before.height / 2);
    for (unsigned row = 0; row < picture->height; row++)
        for (unsigned column = 0; column < picture->width; column++)
            row_of(picture, row)[column] = row_of(&before, 2 * row)[2 * column];
    free(before.points);
    picture->label->changes++;
}

static unsigned light_of(const struct picture *picture)
{
    unsigned sum = picture->label->changes;
    for (unsigned row = 0; row < picture->height; row += 4)
        for (unsigned column = 0; column < picture->width; column += 4)
            sum += row_of(picture, row)[column];
    return sum + strlen(picture->label->text);
}

int main(void)
{
    for (unsigned i = 0; i < PICTURES; i++)
        pictures[i] = make(i);
    for (unsigned step = 0; step < STEPS; step++) {
        struct picture *picture = pictures[draw(PICTURES)];
        unsigned what = draw(5);
        if (what < 3)
            enlarge(picture, 2 + draw(2));
        else
            reduce(picture);
        for (unsigned i = 0; i < PICTURES; i++)
            light += light_of(pictures[i]);
    }
    return (light + refused) & 1;
}
