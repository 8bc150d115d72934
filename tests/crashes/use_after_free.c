/* Sessions with a queue of work: one is closed while the queue still holds it, and its memory becomes a note. */
#include "draw.h"
#include "heap.h"
#include "machine.h"

#define SESSIONS 10
#define QUEUE 16

struct session {
    unsigned requests;
    const char *user;
    struct session *peer;
};

static struct session *sessions[SESSIONS];
static struct session *queue[QUEUE];
static unsigned head, tail;
static char *notes[8];

static struct session *open_session(const char *user)
{
    struct session *session = take(sizeof *session);
    session->requests = 0;
    session->user = user;
    session->peer = session;
    return session;
}

static void close_session(unsigned number)
{
    give(sessions[number]);
    sessions[number] = 0;
}

static void note(unsigned number, const char *text)
{
    char *to = take(12);
    notes[number] = to;
    while (*text)
        *to++ = *text++;
    *to = 0;
}

static unsigned serve(void)
{
    struct session *session = queue[head++ % QUEUE];
    session->requests++;
    return session->user[0] + session->peer->requests;
}

int main(void)
{
    unsigned sum = 0;

    for (int i = 0; i < SESSIONS; i++)
        sessions[i] = open_session(i % 2 ? "ann" : "bob");
    for (int round = 0; round < 80; round++) {
        unsigned number = round == 40 ? 3 : draw(SESSIONS);
        if (sessions[number])
            queue[tail++ % QUEUE] = sessions[number];
        if (round == 40)
            close_session(3);
        if (round == 43)
            note(1, "call back");
        if (tail - head > 8)
            sum += serve();
    }
    return sum & 1;
}
