/* Tasks run in turn, wait for a door, and end or are ended by others. Whoever leaves the door wakes the first that waits. */
#include "draw.h"
#include "heap.h"

#define DOORS 3
#define STEPS 3000
#define MOST 24

struct task {
    struct task *next;
    struct task *next_waiting;
    struct door *holds;
    unsigned *account;
    unsigned work;
    unsigned is_waiting;
};

struct door {
    struct task *holder;
    struct task *waiting;
    unsigned passed;
};

static struct door doors[DOORS];
static struct task *ready, *last;
static unsigned accounts[4], alive, woken, ended_early;

static void append(struct task *task)
{
    task->next = 0;
    if (last)
        last->next = task;
    else
        ready = task;
    last = task;
}

static struct task *next_ready(void)
{
    struct task *task = ready;
    if (task) {
        ready = task->next;
        if (!ready)
            last = 0;
    }
    return task;
}

static void start(unsigned work)
{
    struct task *task = take(sizeof *task);
    task->holds = 0;
    task->next_waiting = 0;
    task->account = &accounts[draw(4)];
    task->work = work;
    task->is_waiting = 0;
    alive++;
    append(task);
}

static void leave(struct task *task)
{
    struct door *door = task->holds;
    task->holds = 0;
    door->holder = door->waiting;
    if (door->holder) {
        door->waiting = door->holder->next_waiting;
        door->holder->is_waiting = 0;
        door->holder->holds = door;
        append(door->holder);
        woken++;
    }
}

static void end(struct task *task)
{
    if (task->holds)
        leave(task);
    *task->account += task->work;
    alive--;
    give(task);
}

static int enter(struct task *task, struct door *door)
{
    door->passed++;
    if (!door->holder) {
        door->holder = task;
        task->holds = door;
        return 1;
    }
    task->next_waiting = door->waiting;
    door->waiting = task;
    task->is_waiting = 1;
    return 0;
}

static void cancel_first_waiting(struct door *door)
{
    struct task *task = door->waiting;
    if (task) {
        ended_early++;
        end(task);
    }
}

static void run(struct task *task)
{
    task->work++;
    if (task->holds) {
        if (draw(3) == 0)
            leave(task);
    } else if (draw(3) == 0 && !enter(task, &doors[draw(DOORS)])) {
        return;
    }
    if (draw(12) == 0)
        end(task);
    else
        append(task);
}

static unsigned *new_message(void)
{
    unsigned *message = take(24);
    for (unsigned i = 0; i < 6; i++)
        message[i] = draw(900);
    return message;
}

int main(void)
{
    unsigned sum = 0, *message = 0;

    for (unsigned i = 0; i < STEPS; i++) {
        struct task *task;
        if (alive < MOST && draw(3) == 0)
            start(draw(10));
        task = next_ready();
        if (task)
            run(task);
        if (i > 200 && draw(40) == 0)
            cancel_first_waiting(&doors[draw(DOORS)]);
        if (draw(6) == 0) {
            if (message) {
                sum += message[0];
                give(message);
            }
            message = new_message();
        }
    }
    return (sum + accounts[0] + woken + ended_early) & 1;
}
