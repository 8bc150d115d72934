/* Two harts take work from a stack of jobs and put new jobs onto it; a job's owner is told once it is done. */
#include "machine.h"

#define HARTS 2
#define JOBS 24
#define STEPS 400

struct owner {
    unsigned told;
    unsigned sum;
};

struct job {
    struct job *next;
    struct owner *owner;
    unsigned size;
};

static struct job jobs[JOBS];
static struct owner owners[4];
static struct job *waiting, *unused;
static unsigned count_waiting, most_waiting;
static volatile unsigned lock, finished;
static unsigned drawn[HARTS] = {88172645u, 521288629u}, idle[HARTS];

static unsigned draw_of(unsigned hart, unsigned below)
{
    drawn[hart] ^= drawn[hart] << 13;
    drawn[hart] ^= drawn[hart] >> 17;
    drawn[hart] ^= drawn[hart] << 5;
    return drawn[hart] % below;
}

static void acquire(void)
{
    while (__sync_lock_test_and_set(&lock, 1))
        ;
}

static void release(void)
{
    __sync_lock_release(&lock);
}

static void push(struct job **stack, struct job *job)
{
    job->next = *stack;
    *stack = job;
}

static struct job *pop(struct job **stack)
{
    struct job *job = *stack;
    if (job)
        *stack = job->next;
    return job;
}

static struct job *new_job(void)
{
    struct job *job;
    acquire();
    job = pop(&unused);
    release();
    return job;
}

static void add_job(unsigned hart)
{
    struct job *job = new_job();
    if (!job)
        return;
    job->owner = &owners[draw_of(hart, 4)];
    job->size = 1 + draw_of(hart, 20);
    acquire();
    push(&waiting, job);
    count_waiting++;
    if (count_waiting > most_waiting)
        most_waiting = count_waiting;
    release();
}

static struct job *next_job(void)
{
    struct job *job;
    acquire();
    job = pop(&waiting);
    if (job)
        count_waiting--;
    release();
    return job;
}

static void finish(struct job *job)
{
    job->owner->told++;
    job->owner->sum += job->size;
    job->owner = 0;
    push(&unused, job);
}

static void step(unsigned hart)
{
    struct job *job;
    if (draw_of(hart, 5) < 3)
        add_job(hart);
    job = draw_of(hart, 2) ? next_job() : 0;
    if (job)
        finish(job);
    else
        idle[hart]++;
}

int other_harts(int hart, int harts)
{
    (void)harts;
    if (hart == 1) {
        for (unsigned i = 0; i < STEPS; i++)
            step(1);
        finished = 1;
    }
    return 0;
}

int main(void)
{
    unsigned sum = 0;

    for (unsigned i = 0; i < JOBS; i++)
        push(&unused, &jobs[i]);
    for (unsigned i = 0; i < STEPS; i++)
        step(0);
    while (!finished)
        ;
    for (unsigned i = 0; i < 4; i++)
        sum += owners[i].told + owners[i].sum;
    return (sum + most_waiting) & 1;
}
