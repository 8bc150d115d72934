/* Messages of several kinds are queued in one buffer, each behind a head of eight bytes, and taken out again in turn. */
#include "draw.h"
#include "machine.h"

#define BUFFER 512
#define ROUNDS 300

struct head {
    unsigned short kind;
    unsigned short length;
    unsigned number;
};

enum { POSITION, NAME, ALARM };

static unsigned char buffer[BUFFER] __attribute__((aligned(4)));
static unsigned first, behind, numbers, taken;
static unsigned positions[4], alarms, letters;

static unsigned padded(unsigned length)
{
    return (length + 3) & ~3u;
}

static int has_room(unsigned length)
{
    return behind + sizeof(struct head) + padded(length) <= BUFFER;
}

static unsigned char *begin(unsigned kind, unsigned length)
{
    struct head *head = (struct head *)(buffer + behind);
    head->kind = kind;
    head->length = length;
    head->number = numbers++;
    behind += sizeof *head;
    return buffer + behind;
}

static void send_position(unsigned x, unsigned y)
{
    if (has_room(8)) {
        unsigned *body = (unsigned *)begin(POSITION, 8);
        body[0] = x;
        body[1] = y;
        behind += 8;
    }
}

static void send_name(const char *name)
{
    unsigned length = 0;
    while (name[length])
        length++;
    if (has_room(length)) {
        unsigned char *body = begin(NAME, length);
        for (unsigned i = 0; i < length; i++)
            body[i] = name[i];
        behind += padded(length);
    }
}

static void send_alarm(unsigned char level)
{
    if (has_room(1)) {
        *begin(ALARM, 1) = level;
        behind += 1;
    }
}

static void take_body(const struct head *head, const unsigned char *body)
{
    if (head->kind == POSITION)
        for (unsigned i = 0; i < 2; i++)
            positions[i] += ((const unsigned *)body)[i];
    else if (head->kind == NAME)
        for (unsigned i = 0; i < head->length; i++)
            letters += body[i];
    else
        alarms += body[0];
}

static int take_one(void)
{
    if (first >= behind)
        return 0;
    const struct head *head = (const struct head *)(buffer + first);
    take_body(head, buffer + first + sizeof *head);
    first += sizeof *head + padded(head->length);
    taken++;
    return 1;
}

static void take_all(void)
{
    while (take_one())
        ;
    first = behind = 0;
}

int main(void)
{
    static const char *const names[] = {"fore", "aft", "port", "starboard", "bridge"};

    for (unsigned round = 0; round < ROUNDS; round++) {
        unsigned what = draw(10);
        if (what < 6)
            send_position(draw(1000), draw(1000));
        else if (what < 9 || round < 150)
            send_name(names[draw(5)]);
        else
            send_alarm(draw(4));
        if (round % 20 == 19)
            take_all();
    }
    return (positions[0] + letters + alarms + taken) & 1;
}
