/* A line brings frames. Each is read into a buffer of the heap, checked, and put into the queue of its port. */
#include "draw.h"
#include "heap.h"
#include "machine.h"

#define PORTS 3
#define FRAMES 150
#define DEEP 6

struct frame {
    unsigned char port;
    unsigned char length;
    unsigned short check;
    unsigned char bytes[24];
};

struct entry {
    struct frame *frame;
    struct entry *next;
    unsigned number;
};

struct port {
    struct entry *first, *last;
    unsigned waiting;
    unsigned refused;
};

static struct port ports[PORTS];
static unsigned bad, sum;

static unsigned short check_of(const struct frame *frame)
{
    unsigned short check = frame->port;
    for (unsigned i = 0; i < frame->length; i++)
        check = check * 5 + frame->bytes[i];
    return check;
}

static struct frame *receive(unsigned number)
{
    struct frame *frame = take(sizeof *frame);
    frame->port = draw(PORTS);
    frame->length = 4 + draw(20);
    for (unsigned i = 0; i < frame->length; i++)
        frame->bytes[i] = draw(256);
    frame->check = check_of(frame) + (number == 60);
    return frame;
}

static int put(struct port *port, struct frame *frame, unsigned number)
{
    struct entry *entry;
    if (port->waiting == DEEP) {
        port->refused++;
        return 0;
    }
    entry = take(sizeof *entry);
    entry->frame = frame;
    entry->number = number;
    entry->next = 0;
    if (port->last)
        port->last->next = entry;
    else
        port->first = entry;
    port->last = entry;
    port->waiting++;
    return 1;
}

static int accept(struct frame *frame, unsigned number)
{
    if (check_of(frame) != frame->check) {
        bad++;
        give(frame);
        return 0;
    }
    return put(&ports[frame->port], frame, number);
}

static void read_line(unsigned number)
{
    struct frame *frame = receive(number);
    if (!accept(frame, number))
        give(frame);
}

static void serve(struct port *port)
{
    struct entry *entry = port->first;
    if (!entry)
        return;
    struct frame *frame = entry->frame;
    port->first = entry->next;
    if (!port->first)
        port->last = 0;
    port->waiting--;
    for (unsigned i = 0; i < frame->length; i++)
        sum += frame->bytes[i] ^ entry->number;
    give(frame);
    give(entry);
}

int main(void)
{
    for (unsigned i = 0; i < FRAMES; i++) {
        read_line(i);
        if (draw(4))
            serve(&ports[draw(PORTS)]);
    }
    for (unsigned i = 0; i < PORTS * DEEP; i++)
        serve(&ports[i % PORTS]);
    return (sum + bad) & 1;
}
