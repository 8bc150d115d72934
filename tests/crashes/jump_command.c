/* A terminal: keys move a cursor, edit a line, or run one of the commands that were bound to them. */
#include "draw.h"

#define KEYS 32
#define WIDTH 16
#define EVENTS 4000
#define HISTORY 6

struct screen;
typedef unsigned command(struct screen *screen, unsigned count);

struct screen {
    unsigned char line[WIDTH];
    unsigned char history[HISTORY];
    unsigned char at;
    unsigned char length;
    unsigned char next;
    unsigned bells;
};

static command *bound[KEYS];
static struct screen screen;

static unsigned left(struct screen *screen, unsigned count)
{
    screen->at = count > screen->at ? 0 : screen->at - count;
    return screen->at;
}

static unsigned right(struct screen *screen, unsigned count)
{
    screen->at += count;
    if (screen->at > screen->length)
        screen->at = screen->length;
    return screen->at;
}

static unsigned erase(struct screen *screen, unsigned count)
{
    while (count-- && screen->at < screen->length) {
        for (unsigned i = screen->at; i + 1 < screen->length; i++)
            screen->line[i] = screen->line[i + 1];
        screen->length--;
    }
    return screen->length;
}

static unsigned clear(struct screen *screen, unsigned count)
{
    screen->at = screen->length = 0;
    return count;
}

static unsigned bell(struct screen *screen, unsigned count)
{
    return screen->bells += count;
}

static void bind_keys(void)
{
    static command *const commands[] = {left, right, erase, clear};
    for (unsigned key = 0; key < KEYS; key++)
        bound[key] = key % 5 < 4 ? commands[key % 5] : bell;
}

static void insert(struct screen *screen, unsigned char letter)
{
    if (screen->length == WIDTH)
        return;
    for (unsigned i = screen->length; i > screen->at; i--)
        screen->line[i] = screen->line[i - 1];
    screen->line[screen->at++] = letter;
    screen->length++;
}

static void remember(struct screen *screen, unsigned key)
{
    screen->history[screen->next] = key;
    screen->next = (screen->next + 1) % HISTORY;
}

static unsigned run(struct screen *screen, unsigned key, unsigned count)
{
    remember(screen, key);
    return bound[key](screen, count);
}

static unsigned repeat(struct screen *screen, int back)
{
    int place = (screen->next - back) % HISTORY;
    return run(screen, screen->history[place], 1);
}

static unsigned press(struct screen *screen, unsigned event)
{
    if (event < 20) {
        insert(screen, 'a' + event);
        return 1;
    }
    if (event < 28)
        return run(screen, draw(KEYS), 1 + draw(3));
    return repeat(screen, 1 + draw(3));
}

int main(void)
{
    unsigned sum = 0;

    bind_keys();
    for (unsigned i = 0; i < HISTORY; i++)
        remember(&screen, i);
    for (unsigned i = 0; i < EVENTS; i++)
        sum += press(&screen, draw(30));
    return (sum + screen.bells) & 1;
}
