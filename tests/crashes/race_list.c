/* Two harts put finished jobs on one list, hart 2 takes them off in bunches. The list is guarded by a lock. */
#include "machine.h"

#define HARTS 3
#define JOBS 60

struct job {
    unsigned number;
    unsigned result;
    struct job *next;
    unsigned *counter;
};

static struct job jobs[2][JOBS];
static unsigned counters[2];
static struct job *volatile done;
static unsigned lock;
static volatile unsigned finished;

static void acquire(void)
{
    while (__sync_lock_test_and_set(&lock, 1))
        ;
}

static void release(void)
{
    __sync_lock_release(&lock);
}

static unsigned compute(unsigned number)
{
    unsigned value = number * 77 + 5, steps = 0;
    while (value > 1 && steps < 12) {
        value = value % 2 ? 3 * value + 1 : value / 2;
        steps++;
    }
    return value;
}

static void put_done(struct job *job)
{
    acquire();
    job->next = done;
    done = job;
    release();
}

static struct job *take_all(void)
{
    acquire();
    struct job *list = done;
    done = 0;
    release();
    return list;
}

static unsigned take_one_back(struct job *job)
{
    if (done == job) {
        done = job->next;
        job->next = 0;
        return 1;
    }
    return 0;
}

static void work(unsigned hart)
{
    for (unsigned i = 0; i < JOBS; i++) {
        struct job *job = &jobs[hart][i];
        job->number = i;
        job->counter = &counters[hart];
        job->result = compute(i + 100 * hart);
        put_done(job);
        if (i % 5 == 4 && take_one_back(job)) {
            job->result += 1;
            job->counter = 0;
            job->counter = &counters[hart];
            put_done(job);
        }
    }
    __sync_fetch_and_add(&finished, 1);
}

static unsigned collect(void)
{
    unsigned sum = 0;
    struct job *list = take_all();
    while (list) {
        struct job *job = list;
        list = job->next;
        *job->counter += 1;
        sum = sum * 3 + job->result;
        job->next = 0;
        job->counter = 0;
    }
    return sum;
}

int other_harts(int hart, int harts)
{
    unsigned sum = 0;
    (void)harts;
    if (hart == 1)
        work(1);
    while (hart == 2 && finished < 2)
        sum += collect();
    if (hart == 2)
        sum += collect();
    return sum & 1;
}

int main(void)
{
    work(0);
    return counters[0] & 1;
}
