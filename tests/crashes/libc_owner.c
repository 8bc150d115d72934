/* Documents share their fonts: a font is loaded once, counted, and freed with the last document that uses it. */
#include <stdlib.h>
#include <string.h>

#include "draw.h"

#define FONTS 5
#define DOCUMENTS 12
#define STEPS 300

struct font {
    unsigned number;
    unsigned users;
    unsigned char *widths;
};

struct document {
    struct font *font;
    unsigned letters;
    unsigned width;
};

static struct font *fonts[FONTS];
static struct document *documents[DOCUMENTS];
static unsigned loads;

static struct font *load_font(unsigned number)
{
    struct font *font = malloc(sizeof *font);
    font->number = number;
    font->users = 0;
    font->widths = malloc(26);
    for (unsigned i = 0; i < 26; i++)
        font->widths[i] = 4 + (i * number) % 9;
    loads++;
    return font;
}

static struct font *use_font(unsigned number)
{
    if (!fonts[number])
        fonts[number] = load_font(number);
    fonts[number]->users++;
    return fonts[number];
}

static void leave_font(struct font *font)
{
    if (--font->users == 0) {
        fonts[font->number] = NULL;
        free(font->widths);
        free(font);
    }
}

static struct document *new_document(unsigned font)
{
    struct document *document = malloc(sizeof *document);
    document->font = use_font(font);
    document->letters = 0;
    document->width = 0;
    return document;
}

static struct document *copy_of(const struct document *from)
{
    struct document *document = malloc(sizeof *document);
    memcpy(document, from, sizeof *document);
    return document;
}

static void close_document(unsigned at)
{
    leave_font(documents[at]->font);
    free(documents[at]);
    documents[at] = NULL;
}

static void write_letters(struct document *document, unsigned count)
{
    for (unsigned i = 0; i < count; i++) {
        unsigned letter = draw(26);
        document->width += document->font->widths[letter];
        document->letters++;
    }
}

static unsigned free_place(void)
{
    unsigned at = 0;
    while (at < DOCUMENTS && documents[at])
        at++;
    return at;
}

static void step(unsigned what)
{
    unsigned at = free_place(), other = draw(DOCUMENTS);
    if (what < 4 && at < DOCUMENTS)
        documents[at] = new_document(draw(FONTS));
    else if (what < 6 && documents[other])
        close_document(other);
    else if (what == 8 && at < DOCUMENTS && documents[other])
        documents[at] = copy_of(documents[other]);
    else if (documents[other])
        write_letters(documents[other], 1 + draw(9));
}

int main(void)
{
    unsigned sum = 0;

    for (unsigned i = 0; i < STEPS; i++)
        step(draw(i < 120 ? 8 : 9));
    for (unsigned i = 0; i < DOCUMENTS; i++)
        if (documents[i])
            sum += documents[i]->width;
    return (sum + loads) & 1;
}
