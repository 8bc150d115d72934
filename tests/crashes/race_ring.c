/* Two harts share a ring: the giver moves `tail` before the entry is there, so the taker finds what was there before. */
#include "draw.h"
#include "machine.h"

#define RING 8

struct task {
    unsigned size;
    unsigned result;
};

static struct task tasks[64];
static struct task *volatile ring[RING];
static volatile unsigned head, tail;

static unsigned weigh(unsigned number)
{
    unsigned sum = number;
    for (unsigned i = 0; i < number % 7; i++)
        sum = sum * 31 + i;
    return sum;
}

static void push(unsigned number)
{
    struct task *task = &tasks[number % 64];
    while (tail - head >= RING)
        ;
    unsigned place = tail % RING;
    tail = tail + 1;
    task->size = weigh(number);
    ring[place] = task;
}

static struct task *pull(void)
{
    while (head == tail)
        ;
    struct task *task = ring[head % RING];
    ring[head % RING] = 0;
    head = head + 1;
    return task;
}

int other_harts(int hart, int harts)
{
    unsigned sum = 0;
    (void)harts;
    for (int i = 0; hart == 1 && i < 500; i++) {
        struct task *task = pull();
        task->result = weigh(task->size);
        sum += task->result;
    }
    return sum & 1;
}

int main(void)
{
    for (unsigned i = 0; i < 500; i++)
        push(i);
    return 0;
}
