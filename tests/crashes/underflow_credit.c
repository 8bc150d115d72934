/* A scheduler with credits: tasks spend credits by their cost, and wait in the row of their level. */
#include "draw.h"
#include "machine.h"

#define TASKS 10
#define LEVELS 16
#define TURNS 500

struct task {
    unsigned number;
    unsigned credit;
    unsigned runs;
    struct task *next;
};

struct row {
    struct task *first;
    unsigned waiting;
};

static struct task tasks[TASKS];
static struct row rows[LEVELS];
static unsigned idle;

static unsigned level_of(const struct task *task)
{
    return task->credit / 8 & 0xfffff;
}

static void wait_in(struct row *row, struct task *task)
{
    struct task **link = &row->first;
    while (*link)
        link = &(*link)->next;
    task->next = 0;
    *link = task;
    row->waiting++;
}

static void enqueue(struct task *task)
{
    wait_in(&rows[level_of(task)], task);
}

static struct task *dequeue(void)
{
    for (unsigned level = LEVELS; level--;) {
        struct task *task = rows[level].first;
        if (task) {
            rows[level].first = task->next;
            rows[level].waiting--;
            return task;
        }
    }
    return 0;
}

static void spend(struct task *task, unsigned cost)
{
    if (task->credit)
        task->credit -= cost;
}

static void earn(struct task *task, unsigned more)
{
    task->credit += more;
    if (task->credit > 8 * LEVELS - 1)
        task->credit = 8 * LEVELS - 1;
}

static unsigned run(struct task *task)
{
    unsigned work = 1 + draw(4) * (1 + task->number % 3);
    task->runs++;
    return work;
}

static void pay_all(void)
{
    for (unsigned i = 0; i < TASKS; i++)
        if (tasks[i].credit < 20)
            earn(&tasks[i], 12);
}

static unsigned fairness(void)
{
    unsigned least = tasks[0].runs, most = least;
    for (unsigned i = 1; i < TASKS; i++) {
        if (tasks[i].runs < least)
            least = tasks[i].runs;
        if (tasks[i].runs > most)
            most = tasks[i].runs;
    }
    return most - least;
}

int main(void)
{
    unsigned sum = 0;

    for (unsigned i = 0; i < TASKS; i++) {
        tasks[i].number = i;
        tasks[i].credit = 60 + draw(40);
        enqueue(&tasks[i]);
    }
    for (unsigned turn = 0; turn < TURNS; turn++) {
        struct task *task = dequeue();
        if (!task) {
            idle++;
            continue;
        }
        unsigned work = run(task);
        spend(task, work);
        enqueue(task);
        sum += work;
        if (turn % 150 == 149)
            pay_all();
        if (turn % 50 == 49)
            sum += fairness();
    }
    return (sum + idle) & 1;
}
