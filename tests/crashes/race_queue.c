/* Hart 0 puts orders into a queue, and the other harts take them out. Each order has a customer, whose orders are counted. */
#include "machine.h"

#define HARTS 3
#define ORDERS 300
#define CUSTOMERS 8
#define DEEP 16

struct customer {
    unsigned orders;
    unsigned paid;
};

struct order {
    struct customer *customer;
    unsigned price;
    struct order *next;
};

static struct customer customers[CUSTOMERS];
static struct order orders[DEEP];
static struct order *volatile queue, *spare;
static unsigned lock, drawn = 5;
static volatile unsigned done, taken;

static unsigned draw_one(unsigned below)
{
    drawn = drawn * 1103515245 + 12345;
    return (drawn >> 16) % below;
}

static void acquire(void)
{
    while (__sync_lock_test_and_set(&lock, 1))
        ;
}

static void release(void)
{
    __sync_lock_release(&lock);
}

static struct order *take_spare(void)
{
    struct order *order;
    acquire();
    order = spare;
    if (order)
        spare = order->next;
    release();
    return order;
}

static void give_spare(struct order *order)
{
    order->customer = 0;
    acquire();
    order->next = spare;
    spare = order;
    release();
}

static void put(struct order *order)
{
    acquire();
    order->next = queue;
    queue = order;
    release();
}

static struct order *get(void)
{
    struct order *order = 0;
    if (!queue)
        return 0;
    acquire();
    order = queue;
    queue = order->next;
    release();
    return order;
}

static void bill(struct order *order)
{
    struct customer *customer = order->customer;
    __sync_fetch_and_add(&customer->paid, order->price);
    __sync_fetch_and_add(&customer->orders, 1);
}

static void serve(void)
{
    while (taken < ORDERS) {
        struct order *order = get();
        if (!order)
            continue;
        bill(order);
        give_spare(order);
        __sync_fetch_and_add(&taken, 1);
    }
}

int other_harts(int hart, int harts)
{
    (void)harts;
    if (hart < HARTS)
        serve();
    return 0;
}

int main(void)
{
    unsigned sum = 0;

    for (unsigned i = 0; i < DEEP; i++)
        give_spare(&orders[i]);
    for (unsigned i = 0; i < ORDERS; i++) {
        struct order *order = 0;
        while (!order)
            order = take_spare();
        order->customer = &customers[draw_one(CUSTOMERS)];
        order->price = 1 + draw_one(50);
        put(order);
    }
    while (taken < ORDERS)
        ;
    for (unsigned i = 0; i < CUSTOMERS; i++)
        sum += customers[i].paid + customers[i].orders;
    return sum & 1;
}
