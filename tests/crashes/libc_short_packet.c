/* Packets from a line: each has a head of four bytes and a body, which is copied into a block of malloc. */
#include <stdlib.h>
#include <string.h>

#include "draw.h"

#define PACKETS 80
#define KINDS 3

struct packet {
    unsigned char kind;
    unsigned char hops;
    unsigned short size;
    unsigned char body[28];
};

struct message {
    unsigned length;
    unsigned arrived;
    struct message *next;
    unsigned char bytes[];
};

struct queue {
    struct message *first;
    struct message *last;
    unsigned messages;
};

static struct queue queues[KINDS];
static struct packet line;

static void from_line(unsigned number)
{
    line.kind = draw(KINDS);
    line.hops = draw(9);
    line.size = 4 + draw(24);
    if (number == 55)
        line.size = 2;
    for (unsigned i = 0; i < sizeof line.body; i++)
        line.body[i] = 32 + draw(90);
}

static unsigned short body_length(const struct packet *packet)
{
    return packet->size - 4;
}

static struct message *new_message(unsigned room)
{
    struct message *message = malloc(sizeof *message + room);
    if (message)
        message->next = NULL;
    return message;
}

static void put(struct queue *queue, struct message *message)
{
    if (queue->last)
        queue->last->next = message;
    else
        queue->first = message;
    queue->last = message;
    queue->messages++;
}

static struct message *get(struct queue *queue)
{
    struct message *message = queue->first;
    if (message) {
        queue->first = message->next;
        if (!queue->first)
            queue->last = NULL;
        queue->messages--;
    }
    return message;
}

static void take_packet(const struct packet *packet, unsigned now)
{
    unsigned length = body_length(packet);
    struct message *message = new_message(packet->size);
    message->length = length;
    message->arrived = now;
    memcpy(message->bytes, packet->body, length);
    put(&queues[packet->kind % KINDS], message);
}

static unsigned handle(struct queue *queue)
{
    unsigned sum = 0;
    struct message *message = get(queue);
    if (!message)
        return 0;
    for (unsigned i = 0; i < message->length; i++)
        sum = sum * 7 + message->bytes[i];
    free(message);
    return sum;
}

int main(void)
{
    unsigned sum = 0;

    for (unsigned i = 0; i < PACKETS; i++) {
        from_line(i);
        take_packet(&line, i);
        if (i % 3 == 2)
            sum ^= handle(&queues[draw(KINDS)]);
    }
    for (unsigned i = 0; i < 3 * PACKETS; i++)
        sum ^= handle(&queues[i % KINDS]);
    return sum & 1;
}
