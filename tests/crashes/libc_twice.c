/* An editor's undo: each change keeps the text before it, and steps back and forth give texts away. */
#include <stdlib.h>
#include <string.h>

#include "draw.h"

#define MOST_STEPS 8
#define EDITS 400

struct text {
    unsigned version;
    char *letters;
    unsigned length;
};

struct step {
    struct text *before;
    unsigned number;
};

static struct text *current;
static struct step steps[MOST_STEPS];
static unsigned used, numbers;
static const char *const words[] = {"alpha", "beta", "gamma", "delta", "omega"};

static struct text *new_text(const char *letters, unsigned length)
{
    struct text *text = malloc(sizeof *text);
    text->version = numbers;
    text->length = length;
    text->letters = malloc(length + 1);
    memcpy(text->letters, letters, length);
    text->letters[length] = 0;
    return text;
}

static void drop_text(struct text *text)
{
    free(text->letters);
    free(text);
}

static void forget_oldest(void)
{
    drop_text(steps[0].before);
    memmove(&steps[0], &steps[1], (MOST_STEPS - 1) * sizeof *steps);
    used--;
}

static void keep(struct text *text)
{
    if (used == MOST_STEPS)
        forget_oldest();
    steps[used].before = text;
    steps[used].number = numbers++;
    used++;
}

static void append(const char *word)
{
    unsigned length = current->length, more = strlen(word);
    char *letters = malloc(length + more);
    memcpy(letters, current->letters, length);
    memcpy(letters + length, word, more);
    struct text *text = new_text(letters, length + more);
    free(letters);
    keep(current);
    current = text;
}

static void cut(unsigned length)
{
    if (length < current->length) {
        struct text *text = new_text(current->letters, length);
        keep(current);
        current = text;
    }
}

static void undo(void)
{
    if (used) {
        drop_text(current);
        current = steps[--used].before;
    }
}

static void revert(unsigned back)
{
    if (back > used)
        back = used;
    if (!back)
        return;
    used -= back;
    drop_text(current);
    for (unsigned i = 0; i < back; i++)
        drop_text(steps[used + i].before);
    current = steps[used].before;
}

static unsigned sum_of(const struct text *text)
{
    unsigned sum = text->length;
    for (unsigned i = 0; i < text->length; i++)
        sum = sum * 31 + (unsigned char)text->letters[i];
    return sum;
}

int main(void)
{
    unsigned sum = 0;

    current = new_text("start", 5);
    for (unsigned i = 0; i < EDITS; i++) {
        unsigned what = draw(10);
        if (what < 6)
            append(words[draw(5)]);
        else if (what < 8)
            cut(4 + draw(12));
        else
            undo();
        if (i == 70)
            revert(3);
        sum += sum_of(current);
    }
    return sum & 1;
}
