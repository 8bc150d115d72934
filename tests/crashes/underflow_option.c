/* Options of a packet's head: each has a kind, a length that counts its own two bytes, and a value. */
#include "draw.h"
#include "machine.h"

#define PACKETS 90
#define HEAD 40

struct settings {
    unsigned window;
    unsigned timeout;
    unsigned char key[8];
    unsigned seen[4];
};

struct peer {
    struct settings settings;
    unsigned packets;
    unsigned bad;
    unsigned (*answer)(struct peer *);
};

static struct peer peers[3];
static unsigned char head[HEAD];

static unsigned accept(struct peer *peer)
{
    return peer->settings.window / 16;
}

static unsigned refuse(struct peer *peer)
{
    return peer->bad;
}

static unsigned put_option(unsigned at, unsigned kind, unsigned length)
{
    head[at] = kind;
    head[at + 1] = 2 + length;
    for (unsigned i = 0; i < length; i++)
        head[at + 2 + i] = 1 + draw(200);
    return at + 2 + length;
}

static unsigned write_head(unsigned number)
{
    unsigned at = put_option(0, 1, 4);
    if (number % 3 == 0)
        at = put_option(at, 2, 4);
    unsigned third = at;
    at = put_option(at, 3, 1 + draw(8));
    if (number == 61)
        head[third + 1] = 1;
    return at;
}

static unsigned read_number(const unsigned char *from)
{
    return from[0] | from[1] << 8 | (unsigned)from[2] << 16 | (unsigned)from[3] << 24;
}

static void copy_key(struct settings *settings, const unsigned char *from, unsigned length)
{
    unsigned char *to = settings->key;
    while (length--)
        *to++ = *from++;
}

static int read_option(struct peer *peer, const unsigned char *option)
{
    unsigned length = (option[1] - 2) & 63;
    peer->settings.seen[option[0] & 3]++;
    switch (option[0]) {
    case 1:
        peer->settings.window = read_number(option + 2);
        break;
    case 2:
        peer->settings.timeout = read_number(option + 2) % 1000;
        break;
    case 3:
        if (option[1] > 2 + sizeof peer->settings.key)
            return 0;
        copy_key(&peer->settings, option + 2, length);
        break;
    default:
        return 0;
    }
    return 1;
}

static void read_head(struct peer *peer, unsigned size)
{
    unsigned at = 0;
    while (at + 2 <= size) {
        if (!read_option(peer, head + at)) {
            peer->bad++;
            return;
        }
        at += head[at + 1] ? head[at + 1] : 2;
    }
    peer->packets++;
}

int main(void)
{
    unsigned sum = 0;

    for (unsigned i = 0; i < 3; i++)
        peers[i].answer = i == 1 ? refuse : accept;
    for (unsigned number = 0; number < PACKETS; number++) {
        struct peer *peer = &peers[draw(3)];
        unsigned size = write_head(number);
        read_head(peer, size);
        if (number % 5 == 4)
            sum += peers[number % 3].answer(&peers[number % 3]);
    }
    return sum & 1;
}
