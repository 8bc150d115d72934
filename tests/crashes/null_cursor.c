/* A player's list of songs, with a cursor on the song that plays. Songs come and go while it plays. */
#include "draw.h"
#include "heap.h"

#define STEPS 3000
#define MOST 8

struct song {
    unsigned number;
    unsigned seconds;
    struct song *next;
    struct song *before;
};

struct player {
    struct song *first;
    struct song *last;
    struct song *cursor;
    unsigned songs;
    unsigned played;
};

static struct player player;

static struct song *new_song(unsigned number)
{
    struct song *song = take(sizeof *song);
    song->number = number;
    song->seconds = 60 + draw(200);
    song->next = 0;
    song->before = 0;
    return song;
}

static void append(struct song *song)
{
    song->before = player.last;
    if (player.last)
        player.last->next = song;
    else
        player.first = song;
    player.last = song;
    if (!player.cursor)
        player.cursor = song;
    player.songs++;
}

static void insert_first(struct song *song)
{
    song->next = player.first;
    if (player.first)
        player.first->before = song;
    else
        player.last = song;
    player.first = song;
    player.songs++;
}

static struct song *song_at(unsigned place)
{
    struct song *song = player.first;
    while (place-- && song->next)
        song = song->next;
    return song;
}

static void take_out(struct song *song)
{
    if (song->before)
        song->before->next = song->next;
    else
        player.first = song->next;
    if (song->next)
        song->next->before = song->before;
    else
        player.last = song->before;
    if (player.cursor == song)
        player.cursor = song->next;
    player.songs--;
    give(song);
}

static void forward(void)
{
    struct song *song = player.cursor;
    player.played += song->seconds;
    player.cursor = song->next ? song->next : player.first;
}

static void change(unsigned number)
{
    unsigned what = draw(8);
    if (what < 4 && player.songs < MOST)
        append(new_song(number));
    else if (what < 5 && player.songs < MOST && player.songs)
        insert_first(new_song(number));
    else if (what < 6 && player.songs > 3)
        take_out(song_at(draw(player.songs)));
}

int main(void)
{
    unsigned sum = 0;

    for (unsigned i = 0; i < 5; i++)
        append(new_song(i));
    for (unsigned i = 0; i < STEPS; i++) {
        change(i + 5);
        if (i % 3)
            forward();
        sum += player.cursor->number;
    }
    return (sum + player.played) & 1;
}
