/* Jobs on the heap: the constructor leaves `done` unset for small jobs, and a block that was used before has old bytes. */
#include "draw.h"
#include "heap.h"
#include "machine.h"

#define JOBS 8

struct job {
    unsigned cost;
    unsigned priority;
    unsigned *done;             /* where to count it, or 0 */
};

struct sample {
    unsigned low, middle, high;
};

static struct job *jobs[JOBS];
static unsigned finished;

static struct job *new_job(unsigned cost)
{
    struct job *job = take(sizeof *job);
    job->cost = cost;
    job->priority = cost % 5;
    if (cost > 20)
        job->done = &finished;
    return job;
}

static unsigned measure(unsigned start)
{
    struct sample *sample = take(sizeof *sample);
    unsigned middle;
    sample->low = start;
    sample->middle = start * 3 + 1;
    sample->high = start * 5 + 2000001;
    middle = sample->middle;
    give(sample);
    return middle;
}

static void finish(unsigned number)
{
    struct job *job = jobs[number];
    if (job->done)
        *job->done += job->cost;
    give(job);
}

int main(void)
{
    unsigned sum = 0;

    for (int i = 0; i < JOBS; i++)
        jobs[i] = new_job(25 + draw(40));
    for (int round = 0; round < 60; round++) {
        unsigned number = draw(JOBS);
        finish(number);
        if (round > 20)
            sum += measure(round);
        jobs[number] = new_job(round < 40 ? 25 + draw(30) : 10 + draw(15));
    }
    return sum & 1;
}
