/* Jobs that are stolen: hart 0 puts jobs at the one end of a row and takes them there again, harts 1 to 3 take them
   from the other end. A job that is done has no text any more. */
#include "machine.h"

#define JOBS 48
#define BATCH 4

struct job {
    const char *text;
    unsigned done_by;
};

static struct job jobs[JOBS];
static unsigned top, bottom;
static unsigned over;
static volatile unsigned letters[4];

static struct job *take(void)
{
    unsigned last = __atomic_load_n(&bottom, __ATOMIC_RELAXED) - 1;
    unsigned first;

    __atomic_store_n(&bottom, last, __ATOMIC_SEQ_CST);
    first = __atomic_load_n(&top, __ATOMIC_SEQ_CST);
    if ((int)(last - first) >= 0)
        return &jobs[last];
    __atomic_store_n(&bottom, last + 1, __ATOMIC_RELEASE);
    return 0;
}

static struct job *steal(void)
{
    unsigned first = __atomic_load_n(&top, __ATOMIC_SEQ_CST);
    unsigned end = __atomic_load_n(&bottom, __ATOMIC_SEQ_CST);

    if ((int)(end - first) <= 0)
        return 0;
    if (!__atomic_compare_exchange_n(&top, &first, first + 1, 0, __ATOMIC_SEQ_CST, __ATOMIC_RELAXED))
        return 0;
    return &jobs[first];
}

static void put(unsigned number)
{
    static const char *const texts[3] = {"saw", "plane", "drill"};
    unsigned end = __atomic_load_n(&bottom, __ATOMIC_RELAXED);

    jobs[end].text = texts[number % 3];
    __atomic_store_n(&bottom, end + 1, __ATOMIC_RELEASE);
}

static void work(struct job *job, unsigned hart)
{
    unsigned count = 0;

    for (const char *letter = job->text; *letter; letter++)
        count++;
    letters[hart] += count;
    job->done_by = hart;
    __atomic_store_n(&job->text, 0, __ATOMIC_RELEASE);
}

int other_harts(int hart, int harts)
{
    (void)harts;
    while (!__atomic_load_n(&over, __ATOMIC_ACQUIRE)) {
        struct job *job = steal();
        if (job)
            work(job, hart);
        for (unsigned i = 0; i < 12; i++)
            letters[hart] += i & 1;
    }
    return 0;
}

int main(void)
{
    struct job *job;

    for (unsigned round = 0; round < 6; round++) {
        for (unsigned i = 0; i < BATCH; i++)
            put(round + i);
        while ((job = take()) != 0)
            work(job, 0);
    }
    __atomic_store_n(&over, 1, __ATOMIC_RELEASE);
    return 0;
}
