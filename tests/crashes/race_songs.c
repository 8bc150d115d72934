/* Songs are kept while somebody hears them. Listeners find a song in a list and hold it; the last one that lets it go clears it. */
#include "machine.h"

#define HARTS 3
#define SONGS 4
#define ROUNDS 200
#define NOTES 6

struct song {
    unsigned users;
    unsigned title;
    const unsigned char *notes;
    unsigned loads;
};

struct listener {
    unsigned drawn;
    unsigned heard;
    unsigned sum;
};

static const unsigned char tunes[3][NOTES] = {{60, 62, 64, 65, 67, 69}, {48, 50, 53, 55, 58, 60}, {72, 71, 69, 67, 64, 62}};
static struct song songs[SONGS];
static unsigned lock;
static struct listener listeners[HARTS] = {{31, 0, 0}, {314, 0, 0}, {3141, 0, 0}};
static volatile unsigned finished;

static unsigned draw_of(struct listener *listener, unsigned below)
{
    listener->drawn = listener->drawn * 1103515245 + 12345;
    return (listener->drawn >> 16) % below;
}

static void acquire(void)
{
    while (__sync_lock_test_and_set(&lock, 1))
        ;
}

static void release(void)
{
    __sync_lock_release(&lock);
}

static void load(struct song *song, unsigned title)
{
    song->title = title;
    song->notes = tunes[title % 3];
    song->loads++;
    song->users = 1;
}

static void clear(struct song *song)
{
    acquire();
    song->notes = 0;
    song->title = 0;
    release();
}

static struct song *find(unsigned title)
{
    for (unsigned i = 0; i < SONGS; i++)
        if (songs[i].title == title)
            return &songs[i];
    return 0;
}

static struct song *find_empty(void)
{
    for (unsigned i = 0; i < SONGS; i++)
        if (!songs[i].title && !songs[i].users)
            return &songs[i];
    return 0;
}

static struct song *hold(unsigned title)
{
    struct song *song;
    acquire();
    song = find(title);
    if (song) {
        __sync_fetch_and_add(&song->users, 1);
    } else {
        song = find_empty();
        if (song)
            load(song, title);
    }
    release();
    return song;
}

static void let_go(struct song *song)
{
    if (__sync_sub_and_fetch(&song->users, 1) == 0)
        clear(song);
}

static unsigned hear(const struct song *song, unsigned length)
{
    unsigned sum = 0;
    for (unsigned i = 0; i < length; i++)
        sum = 3 * sum + song->notes[i % NOTES];
    return sum;
}

static void listen(struct listener *listener)
{
    struct song *song = hold(1 + draw_of(listener, 3));
    if (!song)
        return;
    listener->sum += hear(song, 1 + draw_of(listener, 2 * NOTES));
    listener->heard++;
    let_go(song);
}

static void work(struct listener *listener)
{
    for (unsigned i = 0; i < ROUNDS; i++) {
        listen(listener);
        for (volatile unsigned pause = draw_of(listener, 8); pause; pause--)
            ;
    }
    __sync_fetch_and_add(&finished, 1);
}

int other_harts(int hart, int harts)
{
    (void)harts;
    if (hart < HARTS)
        work(&listeners[hart]);
    return 0;
}

int main(void)
{
    unsigned sum = 0, heard = 0;

    work(&listeners[0]);
    while (finished < HARTS)
        ;
    for (unsigned i = 0; i < HARTS; i++) {
        sum += listeners[i].sum;
        heard += listeners[i].heard;
    }
    return (sum + heard + songs[0].loads) & 1;
}
