/* A table of players moves when it grows; the best player is remembered by a pointer into the old table. */
#include "draw.h"
#include "heap.h"
#include "machine.h"

struct player {
    const char *name;
    unsigned points;
};

static struct player *players;
static unsigned count, room;
static struct player *best;
static unsigned *history;

static void grow(void)
{
    struct player *wider = take(2 * room * sizeof *wider);
    for (unsigned i = 0; i < count; i++)
        wider[i] = players[i];
    give(players);
    players = wider;
    room *= 2;
}

static void join(const char *name)
{
    if (count == room)
        grow();
    players[count].name = name;
    players[count].points = draw(10);
    count++;
}

static void play(unsigned round)
{
    struct player *player = &players[draw(count)];
    player->points += draw(6);
    if (round < 30 && (!best || player->points > best->points))
        best = player;
}

static void keep_history(unsigned length)
{
    history = take(length * 4);
    for (unsigned i = 0; i < length; i++)
        history[i] = 100000000 + i * 3;
}

static unsigned announce(void)
{
    unsigned letters = 0;
    for (const char *name = best->name; *name; name++)
        letters++;
    return letters;
}

int main(void)
{
    unsigned sum = 0;

    room = 4;
    players = take(room * sizeof *players);
    for (int i = 0; i < 4; i++)
        join("first");
    for (unsigned round = 0; round < 60; round++) {
        play(round);
        if (round == 31)
            join("guest");
        if (round == 45)
            keep_history(8);
        if (round % 10 == 9)
            sum += announce();
    }
    return sum & 1;
}
