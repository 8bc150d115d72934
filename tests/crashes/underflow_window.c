/* A sender may have a window of bytes on their way. Answers make room again; a part of the bytes is sent twice. */
#include "draw.h"

#define WINDOW 512
#define CONNECTIONS 5
#define STEPS 3000

struct connection {
    unsigned char buffer[WINDOW];
    unsigned sent;
    unsigned answered;
    unsigned again;
    unsigned room;
};

static struct connection connections[CONNECTIONS];
static unsigned answers, late, sent_twice;

static unsigned on_way(const struct connection *connection)
{
    return connection->sent - connection->answered;
}

static void put_byte(struct connection *connection, unsigned place, unsigned byte)
{
    connection->buffer[place % WINDOW] = byte;
}

static void send(struct connection *connection, unsigned size)
{
    if (size > connection->room)
        size = connection->room;
    for (unsigned i = 0; i < size; i++)
        put_byte(connection, connection->sent + i, i * size);
    connection->sent += size;
    connection->room -= size;
}

static void answer(struct connection *connection, unsigned size)
{
    connection->answered += size;
    connection->room += size;
    answers++;
}

static unsigned chunk_of(const struct connection *connection)
{
    unsigned chunk = 1 + draw(30);
    return chunk > on_way(connection) ? on_way(connection) : chunk;
}

static void send_again(struct connection *connection, unsigned size)
{
    unsigned sum = 0;
    for (unsigned i = 0; i < size; i++)
        sum += connection->buffer[(connection->answered + i) % WINDOW];
    connection->again += sum & 1;
    sent_twice += size;
}

static void shrink(struct connection *connection, unsigned by)
{
    if (on_way(connection) < by)
        by = on_way(connection);
    connection->room -= by;
    late++;
}

static unsigned copy_last(const struct connection *connection)
{
    unsigned char last[64];
    unsigned sum = 0;
    for (unsigned i = 0; i < sizeof last; i++)
        last[i] = connection->buffer[(connection->sent - 1 - i) % WINDOW];
    for (unsigned i = 0; i < sizeof last; i++)
        sum += last[i];
    return sum;
}

static unsigned read_window(const struct connection *connection)
{
    const unsigned char *from = connection->buffer;
    unsigned sum = 0, size = connection->room;
    while (size >= 64) {
        sum += from[0] + from[63];
        from += 64;
        size -= 64;
    }
    return sum;
}

int main(void)
{
    unsigned sum = 0;

    for (unsigned i = 0; i < CONNECTIONS; i++)
        connections[i].room = WINDOW / 2;
    for (unsigned i = 0; i < STEPS; i++) {
        struct connection *connection = &connections[draw(CONNECTIONS)];
        unsigned what = draw(10);
        if (what < 5)
            send(connection, 4 + draw(30));
        else if (what < 8)
            answer(connection, chunk_of(connection));
        else if (what == 8)
            send_again(connection, chunk_of(connection));
        else if (i > 100 && draw(4) == 0)
            shrink(connection, 1 + draw(20));
        else
            sum += copy_last(connection) + read_window(connection);
    }
    return (sum + answers + late + sent_twice) & 1;
}
