/* Parcels come over a pipe as records: a head with the length, then the text. A reader prints their weights and names. */
#include "draw.h"
#include "machine.h"

#define PARCELS 24
#define ROOM 64
#define PIPE 4096

struct head {
    unsigned short length;
    unsigned short weight;
};

struct parcel {
    struct head head;
    char name[ROOM];
};

struct pipe {
    unsigned char bytes[PIPE];
    unsigned filled;
    unsigned taken;
    unsigned most;
};

static const char *const goods[] = {"tea", "cups of glass", "books", "an old clock", "wool", "two maps and a compass", "seeds"};
static struct pipe pipe;
static char text[128];
static unsigned weight;

static void put_bytes(const void *from, unsigned count)
{
    const unsigned char *byte = from;
    while (count--)
        pipe.bytes[pipe.filled++] = *byte++;
}

static unsigned length_of(const char *name)
{
    unsigned length = 0;
    while (name[length])
        length++;
    return length;
}

static void send(void)
{
    const char *name = goods[draw(7)];
    struct head head = {length_of(name), 100 + draw(900)};
    put_bytes(&head, sizeof head);
    put_bytes(name, head.length);
}

/* Takes as many bytes as are there and fit, at most `count`: how many. */
static unsigned take_bytes(void *to, unsigned count)
{
    unsigned char *byte = to;
    unsigned there = pipe.most - pipe.taken % pipe.most;
    unsigned left = pipe.filled - pipe.taken;
    if (count > there)
        count = there;
    if (count > left)
        count = left;
    for (unsigned i = 0; i < count; i++)
        *byte++ = pipe.bytes[pipe.taken++];
    return count;
}

static unsigned take_all(void *to, unsigned count)
{
    unsigned taken = 0, more;
    while (taken < count && (more = take_bytes((char *)to + taken, count - taken)))
        taken += more;
    return taken;
}

static int receive(struct parcel *parcel)
{
    if (take_all(&parcel->head, sizeof parcel->head) < sizeof parcel->head)
        return 0;
    if (parcel->head.length >= ROOM)
        return 0;
    if (!take_bytes(parcel->name, parcel->head.length))
        return 0;
    parcel->name[parcel->head.length] = 0;
    return 1;
}

static void print(const struct parcel *parcel, unsigned number)
{
    char *end = put_number(put_text(text, "parcel "), number);
    end = put_number(put_text(end, ": "), parcel->head.weight);
    end = put_text(put_text(end, " of "), parcel->name);
    *end++ = '\n';
    write_all(STREAM_OUT, text, end - text);
    weight += parcel->head.weight;
}

int main(void)
{
    static struct parcel parcel;
    unsigned number = 0;
    char *end;

    pipe.most = 140;
    for (unsigned i = 0; i < PARCELS; i++)
        send();
    while (receive(&parcel))
        print(&parcel, ++number);
    end = put_number(put_text(text, "parcels "), number);
    end = put_number(put_text(end, ", weight "), weight);
    *end++ = '\n';
    write_all(STREAM_OUT, text, end - text);
    return 0;
}
