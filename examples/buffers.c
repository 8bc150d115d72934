/* Four harts take buffers from a stack without a lock, fill and add them up, and give them back. The bug: `take` compares
   the top with the buffer that it has seen there, and takes "the same" for "nothing has changed". If others took that
   buffer and the one below it, and gave the first back, its exchange succeeds: it puts a buffer on the stack that is in
   use. Two harts then have one buffer, and the one that is done first clears its source. */
#include "machine.h"

#define BUFFERS 12
#define ROUNDS 24
#define WORDS 8

struct buffer {
    struct buffer *below;
    const unsigned *source;
    unsigned words[WORDS];
};

static const unsigned sources[2][WORDS] = {
    {3, 1, 4, 1, 5, 9, 2, 6},
    {2, 7, 1, 8, 2, 8, 1, 8},
};
static struct buffer pool[BUFFERS];
static struct buffer *top;
static unsigned ready;

static struct buffer *take(void)
{
    struct buffer *seen = __atomic_load_n(&top, __ATOMIC_ACQUIRE);
    struct buffer *below;

    do
        below = seen->below;
    while (!__atomic_compare_exchange_n(&top, &seen, below, 0, __ATOMIC_ACQ_REL, __ATOMIC_ACQUIRE));
    return seen;
}

static void give(struct buffer *buffer)
{
    struct buffer *seen = __atomic_load_n(&top, __ATOMIC_ACQUIRE);

    buffer->source = 0;
    do
        buffer->below = seen;
    while (!__atomic_compare_exchange_n(&top, &seen, buffer, 0, __ATOMIC_ACQ_REL, __ATOMIC_ACQUIRE));
}

__attribute__((noinline)) static void fill_word(struct buffer *buffer, unsigned at, unsigned factor)
{
    buffer->words[at] = buffer->source[at] * factor;
}

static struct buffer *filled(unsigned number, unsigned factor)
{
    struct buffer *buffer = take();

    buffer->source = sources[number & 1];
    for (unsigned at = 0; at < WORDS; at++)
        fill_word(buffer, at, factor);
    return buffer;
}

static unsigned total(const struct buffer *buffer)
{
    unsigned sum = 0;

    for (unsigned at = 0; at < WORDS; at++)
        sum += buffer->words[at];
    return sum;
}

static unsigned rounds(unsigned hart)
{
    unsigned sum = 0;

    for (unsigned round = 0; round < ROUNDS; round++) {
        struct buffer *first = filled(round, hart + 1);
        struct buffer *second = filled(round + 1, round + 1);
        sum += total(first);
        give(first);
        sum += total(second);
        give(second);
    }
    return sum;
}

int other_harts(int hart, int harts)
{
    (void)harts;
    while (!__atomic_load_n(&ready, __ATOMIC_ACQUIRE))
        ;
    return rounds(hart) & 1;
}

int main(int hart, int harts)
{
    (void)harts;
    for (unsigned i = 0; i < BUFFERS; i++)
        give(&pool[i]);
    __atomic_store_n(&ready, 1, __ATOMIC_RELEASE);
    return rounds(hart) & 1;
}
