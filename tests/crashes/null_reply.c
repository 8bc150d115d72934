/* Requests go out with a tag, and replies come back in another order. A request that waits too long is given up. */
#include "draw.h"
#include "machine.h"

#define PENDING 16
#define TURNS 260
#define PATIENCE 25

struct request {
    unsigned tag;
    unsigned sent;
    unsigned size;
    struct request *next;
};

struct reply {
    unsigned tag;
    unsigned due;
    unsigned bytes;
};

static struct request requests[PENDING];
static struct request *spare, *pending;
static struct reply wire[64];
static unsigned on_wire, next_tag, given_up, latency, received;

static void set_up(void)
{
    for (unsigned i = 0; i < PENDING; i++) {
        requests[i].next = spare;
        spare = &requests[i];
    }
}

static unsigned delay_of(unsigned tag)
{
    unsigned delay = 2 + draw(12);
    return tag == 97 ? delay + 30 : delay;
}

static void send(unsigned now)
{
    struct request *request = spare;
    if (!request || on_wire == sizeof wire / sizeof wire[0])
        return;
    spare = request->next;
    request->tag = next_tag++;
    request->sent = now;
    request->size = 8 + draw(24);
    request->next = pending;
    pending = request;
    wire[on_wire++] = (struct reply){request->tag, now + delay_of(request->tag), request->size};
}

static struct request *find_pending(unsigned tag)
{
    struct request *request = pending;
    while (request && request->tag != tag)
        request = request->next;
    return request;
}

static void unlink_request(struct request *request)
{
    struct request **link = &pending;
    while (*link && *link != request)
        link = &(*link)->next;
    if (*link)
        *link = request->next;
    request->next = spare;
    spare = request;
}

static void give_up_old(unsigned now)
{
    struct request *next;
    for (struct request *request = pending; request; request = next) {
        next = request->next;
        if (now - request->sent > PATIENCE) {
            unlink_request(request);
            given_up++;
        }
    }
}

static unsigned is_whole(const struct request *request, const struct reply *reply)
{
    return reply->bytes >= request->size;
}

static void finish(struct request *request, const struct reply *reply, unsigned now)
{
    if (is_whole(request, reply))
        received++;
    latency += now - request->sent;
    unlink_request(request);
}

static void take_replies(unsigned now)
{
    for (unsigned i = 0; i < on_wire;) {
        if (wire[i].due > now) {
            i++;
            continue;
        }
        struct reply reply = wire[i];
        wire[i] = wire[--on_wire];
        finish(find_pending(reply.tag), &reply, now);
    }
}

int main(void)
{
    set_up();
    for (unsigned now = 0; now < TURNS; now++) {
        if (draw(3))
            send(now);
        take_replies(now);
        give_up_old(now);
    }
    return (latency + received + given_up) & 1;
}
