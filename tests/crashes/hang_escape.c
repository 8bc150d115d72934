/* Frames come over a line as bytes. A reader takes them apart: begin, length, bytes, check; some bytes are escaped. */
#include "draw.h"
#include "machine.h"

#define ROOM 512
#define FRAMES 160
#define BEGIN 0x7e
#define ESCAPE 0x7d
#define FLIP 0x20

enum state { OUTSIDE, LENGTH, BODY, ESCAPED, CHECK };

struct reader {
    enum state state;
    unsigned char body[32];
    unsigned length;
    unsigned filled;
    unsigned char check;
};

static unsigned char line[ROOM];
static unsigned line_length;
static unsigned good, bad, bytes;
static char text[64];

static void put_byte(unsigned byte)
{
    line[line_length++] = byte;
}

static void put_escaped(unsigned byte)
{
    if (byte == BEGIN || byte == ESCAPE) {
        put_byte(ESCAPE);
        byte ^= FLIP;
    }
    put_byte(byte);
}

static void put_frame(unsigned number)
{
    unsigned length = 3 + draw(20);
    unsigned char check = 0;
    put_byte(BEGIN);
    put_byte(length);
    for (unsigned i = 0; i < length; i++) {
        unsigned byte = draw(100);
        if (number > 110 && draw(30) == 0)
            byte = BEGIN;
        check += byte;
        put_escaped(byte);
    }
    if (draw(12) == 0)
        check++;
    put_byte(check & 0x3f);
}

static void begin_frame(struct reader *reader)
{
    reader->length = 0;
    reader->filled = 0;
    reader->check = 0;
    reader->state = LENGTH;
}

static void take(struct reader *reader, unsigned char byte)
{
    reader->body[reader->filled++] = byte;
    reader->check += byte;
    reader->state = reader->filled == reader->length ? CHECK : BODY;
}

static unsigned end_frame(struct reader *reader, unsigned char byte)
{
    reader->state = OUTSIDE;
    if ((reader->check & 0x3f) != byte)
        return bad++;
    bytes += reader->length;
    return good++;
}

/* Takes the byte at `from`, and returns the place of the next one. */
static unsigned step(struct reader *reader, unsigned from)
{
    unsigned char byte = line[from];
    switch (reader->state) {
    case OUTSIDE:
        if (byte == BEGIN)
            begin_frame(reader);
        return from + 1;
    case LENGTH:
        reader->length = byte;
        reader->state = BODY;
        return from + 1;
    case BODY:
        if (byte == ESCAPE)
            reader->state = ESCAPED;
        else
            take(reader, byte);
        return from + 1;
    case CHECK:
        end_frame(reader, byte);
        return from + 1;
    default:
        return from;
    }
}

static void read_line(struct reader *reader)
{
    unsigned place = 0;
    while (place < line_length)
        place = step(reader, place);
}

int main(void)
{
    static struct reader reader;
    char *end;

    for (unsigned number = 0; number < FRAMES; number++) {
        line_length = 0;
        put_frame(number);
        read_line(&reader);
    }
    end = put_number(put_text(text, "good "), good);
    end = put_number(put_text(end, ", bad "), bad);
    end = put_number(put_text(end, ", bytes "), bytes);
    *end++ = '\n';
    write_all(STREAM_OUT, text, end - text);
    return 0;
}
