/* A sender and a receiver of frames over a lossy line: the sender goes on when all that it sent is stored. */
#include "draw.h"
#include "machine.h"

#define FRAMES 400
#define WINDOW 4

struct frame {
    unsigned char number;
    unsigned char checksum;
    unsigned short length;
    unsigned words[4];
};

struct sender {
    unsigned char next;
    unsigned sent;
    unsigned repeated;
    struct frame window[WINDOW];
};

struct receiver {
    unsigned stored;
    unsigned bad;
    unsigned sum;
};

static struct sender sender;
static struct receiver receiver;
static struct frame line;
static int line_is_full;

static unsigned char checksum_of(const struct frame *frame)
{
    unsigned char sum = frame->number;
    for (unsigned i = 0; i < 4; i++)
        sum = 3 * sum + (frame->words[i] & 255);
    return sum;
}

static void prepare(struct frame *frame)
{
    frame->number = sender.next++;
    frame->length = 16;
    for (unsigned i = 0; i < 4; i++)
        frame->words[i] = draw(100000);
    frame->checksum = checksum_of(frame);
}

static void put_on_line(const struct frame *frame)
{
    line = *frame;
    if (draw(10) == 0)
        line.words[draw(4)] ^= 1u << draw(8);
    line_is_full = 1;
    sender.sent++;
}

static void receive(void)
{
    if (!line_is_full)
        return;
    line_is_full = 0;
    if (checksum_of(&line) != line.checksum) {
        receiver.bad++;
        return;
    }
    if (line.number == (receiver.stored & 255)) {
        receiver.stored++;
        for (unsigned i = 0; i < 4; i++)
            receiver.sum += line.words[i];
    }
}

static int is_stored(unsigned char number)
{
    return (unsigned char)(receiver.stored - 1) == number;
}

static void send_window(void)
{
    for (unsigned i = 0; i < WINDOW; i++) {
        struct frame *frame = &sender.window[i];
        prepare(frame);
        do {
            put_on_line(frame);
            receive();
            if (!is_stored(frame->number))
                sender.repeated++;
        } while (!is_stored(frame->number));
    }
    while (receiver.stored != sender.next) {
        put_on_line(&sender.window[WINDOW - 1]);
        receive();
    }
}

static unsigned quality(void)
{
    return 100 * receiver.stored / (sender.sent + 1);
}

int main(void)
{
    unsigned sum = 0;

    for (unsigned frames = 0; frames < FRAMES; frames += WINDOW) {
        send_window();
        sum += quality();
    }
    return (sum + receiver.sum + sender.repeated) & 1;
}
