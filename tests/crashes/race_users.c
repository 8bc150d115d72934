/* Buffers that two harts share are counted: the last user gives a buffer back to the pool. */
#include "draw.h"
#include "machine.h"

#define BUFFERS 6
#define WORDS 8
#define ROUNDS 700

struct buffer {
    volatile unsigned users;
    unsigned length;
    unsigned *words;
    struct buffer *next;
    unsigned store[WORDS];
};

static struct buffer buffers[BUFFERS];
static struct buffer *spare;
static unsigned lock;
static struct buffer *volatile slot;
static volatile unsigned over;

static void acquire(unsigned *word)
{
    while (__sync_lock_test_and_set(word, 1))
        ;
}

static void release(unsigned *word)
{
    __sync_lock_release(word);
}

static void put_spare(struct buffer *buffer)
{
    acquire(&lock);
    buffer->words = 0;
    buffer->next = spare;
    spare = buffer;
    release(&lock);
}

static struct buffer *get_spare(void)
{
    acquire(&lock);
    struct buffer *buffer = spare;
    if (buffer) {
        spare = buffer->next;
        buffer->words = buffer->store;
        buffer->users = 1;
    }
    release(&lock);
    return buffer;
}

static unsigned change_users(struct buffer *buffer, int by)
{
    unsigned users = buffer->users + by;
    buffer->users = users;
    return users;
}

static void drop(struct buffer *buffer)
{
    if (change_users(buffer, -1) == 0)
        put_spare(buffer);
}

static struct buffer *hold_current(void)
{
    acquire(&lock);
    struct buffer *buffer = slot;
    if (buffer)
        change_users(buffer, 1);
    release(&lock);
    return buffer;
}

static void install(struct buffer *buffer)
{
    acquire(&lock);
    struct buffer *old = slot;
    slot = buffer;
    release(&lock);
    if (old)
        drop(old);
}

static void fill(struct buffer *buffer, unsigned round)
{
    buffer->length = 2 + draw(WORDS - 2);
    for (unsigned i = 0; i < buffer->length; i++)
        buffer->words[i] = round * i;
}

static unsigned sum_of(const struct buffer *buffer)
{
    unsigned sum = 0;
    for (unsigned i = 0; i < buffer->length; i++)
        sum = sum * 3 + buffer->words[i];
    return sum;
}

static unsigned use_current(void)
{
    unsigned sum = 0;
    struct buffer *buffer = hold_current();
    if (buffer) {
        sum = sum_of(buffer);
        drop(buffer);
    }
    return sum;
}

int other_harts(int hart, int harts)
{
    unsigned sum = 0;
    (void)harts;
    while (hart == 1 && !over)
        sum += use_current();
    return sum & 1;
}

int main(void)
{
    unsigned sum = 0;

    for (unsigned i = 0; i < BUFFERS; i++)
        put_spare(&buffers[i]);
    for (unsigned round = 0; round < ROUNDS; round++) {
        struct buffer *buffer = round % 4 ? 0 : get_spare();
        if (buffer) {
            fill(buffer, round);
            install(buffer);
        }
        sum += use_current();
    }
    over = 1;
    return sum & 1;
}
