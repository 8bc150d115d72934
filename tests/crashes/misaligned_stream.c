/* A stream of records, each a head and some words. Records of a kind that nobody asked for are passed over. */
#include "draw.h"

#define SIZE 4096
#define KINDS 4

struct head {
    unsigned char kind;
    unsigned char length;       /* bytes behind the head */
    unsigned short number;
};

struct reader {
    const unsigned char *at;
    const unsigned char *end;
    unsigned records;
    unsigned passed;
};

static unsigned char stream[SIZE] __attribute__((aligned(4)));
static unsigned used, wanted;

static void put_words(unsigned kind, unsigned number, unsigned words)
{
    struct head *head = (struct head *)(stream + used);
    unsigned *to = (unsigned *)(head + 1);
    head->kind = kind;
    head->length = 4 * words;
    head->number = number;
    for (unsigned i = 0; i < words; i++)
        to[i] = draw(10000);
    used += sizeof *head + head->length;
}

static void put_text(unsigned number, unsigned letters)
{
    struct head *head = (struct head *)(stream + used);
    unsigned char *to = (unsigned char *)(head + 1);
    head->kind = KINDS - 1;
    head->length = letters;
    head->number = number;
    for (unsigned i = 0; i < letters; i++)
        to[i] = 'a' + draw(26);
    used += (sizeof *head + letters + 3) & ~3u;
}

static void write_stream(void)
{
    for (unsigned number = 0; used + 64 < SIZE; number++) {
        if (number % 11 == 10)
            put_text(number, 4 * draw(6));
        else if (number > 90 && number % 5 == 4)
            put_text(number, 3 + draw(20));
        else
            put_words(draw(KINDS - 1), number, 1 + draw(9));
    }
}

static int has_more(const struct reader *reader)
{
    return reader->at + sizeof(struct head) <= reader->end;
}

static const struct head *next_head(struct reader *reader)
{
    const struct head *head = (const struct head *)reader->at;
    reader->at += sizeof *head;
    reader->records++;
    return head;
}

static unsigned read_words(struct reader *reader, unsigned bytes)
{
    const unsigned *words = (const unsigned *)reader->at;
    unsigned sum = 0;
    for (unsigned i = 0; i < bytes / 4; i++)
        sum += words[i];
    reader->at += bytes;
    return sum;
}

static void pass(struct reader *reader, unsigned bytes)
{
    reader->at += bytes;
    reader->passed += bytes;
}

static unsigned read_stream(struct reader *reader)
{
    unsigned sum = 0;
    while (has_more(reader)) {
        const struct head *head = next_head(reader);
        if (head->kind == wanted)
            sum += read_words(reader, head->length) ^ head->number;
        else
            pass(reader, head->length);
    }
    return sum;
}

int main(void)
{
    unsigned sum = 0;

    write_stream();
    for (wanted = 0; wanted < KINDS - 1; wanted++) {
        struct reader reader = {stream, stream + used, 0, 0};
        sum += read_stream(&reader);
    }
    return sum & 1;
}
