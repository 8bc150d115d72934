/* A text is put together line by line in a buffer that grows, and each finished line is copied into a list. */
#include <stdlib.h>
#include <string.h>

#include "draw.h"

#define LINES 90

struct line {
    struct line *next;
    unsigned length;
    char *letters;
};

struct buffer {
    char *letters;
    unsigned used;
    unsigned room;
    unsigned grown;
};

static struct buffer buffer;
static struct line *lines;
static const char *const words[] = {"a", "the", "river", "crosses", "valley", "mountain", "and", "below", "northwards", "of"};

static void begin(unsigned room)
{
    buffer.letters = malloc(room);
    buffer.room = room;
    buffer.used = 0;
    buffer.letters[0] = 0;
}

static void grow(unsigned least)
{
    unsigned room = buffer.room + 16;
    if (room < least)
        room = least;
    buffer.letters = realloc(buffer.letters, room);
    buffer.room = room;
    buffer.grown++;
}

static void add(const char *text)
{
    unsigned length = strlen(text);
    if (buffer.used + length + 1 > buffer.room)
        grow(buffer.used + length + 1);
    memcpy(buffer.letters + buffer.used, text, length + 1);
    buffer.used += length;
}

static void pad(unsigned width)
{
    while (buffer.used < width) {
        buffer.letters[buffer.used++] = '.';
        buffer.letters[buffer.used] = 0;
    }
}

static struct line *finish(void)
{
    struct line *line = malloc(sizeof *line);
    line->length = buffer.used;
    line->letters = malloc(buffer.used + 1);
    memcpy(line->letters, buffer.letters, buffer.used + 1);
    line->next = lines;
    lines = line;
    free(buffer.letters);
    return line;
}

static void drop_last(void)
{
    struct line *line = lines;
    lines = line->next;
    free(line->letters);
    free(line);
}

static unsigned sum_up(void)
{
    unsigned sum = 0;
    for (const struct line *line = lines; line; line = line->next)
        for (unsigned i = 0; i < line->length; i++)
            sum = sum * 3 + (unsigned char)line->letters[i];
    return sum;
}

int main(void)
{
    unsigned sum = 0;

    for (unsigned number = 0; number < LINES; number++) {
        begin(24);
        for (unsigned i = 2 + draw(4); i; i--) {
            add(words[draw(10)]);
            add(" ");
        }
        if (number % 4 == 3)
            pad(number < 40 ? 20 : 40);
        finish();
        if (draw(3) == 0 && number > 8)
            drop_last();
        if (number % 10 == 9)
            sum += sum_up();
    }
    return (sum + buffer.grown) & 1;
}
