/* Timers of connections: each period those that are due are called, and a connection that closes cancels its own. */
#include "draw.h"
#include "heap.h"
#include "machine.h"

#define CONNECTIONS 9
#define PERIODS 260

struct connection;

struct timer {
    unsigned due;
    unsigned (*call)(struct connection *, unsigned);
    struct connection *connection;
    unsigned started;
    struct timer *next;
};

struct connection {
    unsigned number;
    unsigned state;
    unsigned retries;
    struct timer *keep_alive;
    struct timer *retry;
};

struct note {
    unsigned length;
    char text[12];
    struct note *before;
};

static struct connection connections[CONNECTIONS];
static struct timer *timers;
static struct note *notes;
static unsigned closed, called;

static struct timer *start(struct connection *connection, unsigned due, unsigned (*call)(struct connection *, unsigned))
{
    struct timer *timer = take(sizeof *timer), **link = &timers;
    timer->due = due;
    timer->call = call;
    timer->connection = connection;
    timer->started = due;
    while (*link && (*link)->due < due)
        link = &(*link)->next;
    timer->next = *link;
    *link = timer;
    return timer;
}

static void cancel(struct timer *timer)
{
    struct timer **link = &timers;
    while (*link && *link != timer)
        link = &(*link)->next;
    if (*link) {
        *link = timer->next;
        give(timer);
    }
}

static void write_note(unsigned number)
{
    struct note *note = take(sizeof *note);
    char *end = put_number(put_text(note->text, "closed "), number);
    *end = 0;
    note->length = end - note->text;
    note->before = notes;
    notes = note;
    closed++;
}

static unsigned keep_alive(struct connection *connection, unsigned now)
{
    connection->state++;
    connection->keep_alive = start(connection, now + 5 + draw(4), keep_alive);
    return 1;
}

static unsigned retry(struct connection *connection, unsigned now)
{
    connection->retries++;
    if (connection->retries % 4 == 0) {
        cancel(connection->keep_alive);
        write_note(connection->number);
        connection->keep_alive = start(connection, now + 20, keep_alive);
    }
    connection->retry = start(connection, now + 6 + draw(9), retry);
    return 2;
}

static unsigned run_due(unsigned now)
{
    unsigned answers = 0;
    struct timer *timer = timers, *next;
    for (; timer && timer->due <= now; timer = next) {
        next = timer->next;
        timers = next;
        answers += timer->call(timer->connection, now);
        called++;
        give(timer);
    }
    return answers;
}

static void open_all(void)
{
    for (unsigned i = 0; i < CONNECTIONS; i++) {
        struct connection *connection = &connections[i];
        connection->number = i;
        connection->keep_alive = start(connection, 3 + draw(5), keep_alive);
        connection->retry = start(connection, 10 + draw(9), retry);
    }
}

int main(void)
{
    unsigned sum = 0;

    open_all();
    for (unsigned now = 0; now < PERIODS; now++)
        sum += run_due(now);
    return (sum + closed + called) & 1;
}
