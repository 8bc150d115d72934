/* Each hart draws a ticket with a number, and serves the customer that waits with that number. */
#include "machine.h"

#define HARTS 4
#define CUSTOMERS 240

struct account {
    unsigned money;
    unsigned visits;
};

struct customer {
    struct account *account;
    unsigned wanted;
    unsigned served_by;
};

static struct account accounts[8];
static struct customer customers[CUSTOMERS];
static unsigned next_ticket;
static volatile unsigned began, finished;
static unsigned served[HARTS], paid[HARTS];

static inline unsigned load_reserved(const unsigned *place)
{
    unsigned value;
    __asm__ volatile("lr.w %0, (%1)" : "=r"(value) : "r"(place) : "memory");
    return value;
}

/* Answers 0 where the value was stored. */
static inline unsigned store_conditional(unsigned *place, unsigned value)
{
    unsigned answer;
    __asm__ volatile("sc.w %0, %2, (%1)" : "=&r"(answer) : "r"(place), "r"(value) : "memory");
    return answer;
}

static unsigned draw_ticket(void)
{
    unsigned ticket = load_reserved(&next_ticket);
    if (ticket < CUSTOMERS)
        store_conditional(&next_ticket, ticket + 1);
    return ticket;
}

static void add(unsigned *place, unsigned more)
{
    unsigned value;
    do
        value = load_reserved(place);
    while (store_conditional(place, value + more));
}

static unsigned pay_out(struct customer *customer, unsigned hart)
{
    struct account *account = customer->account;
    unsigned wanted = customer->wanted;
    customer->account = 0;
    customer->served_by = hart;
    if (wanted > account->money)
        wanted = account->money / 2;
    add(&account->visits, 1);
    return wanted;
}

static unsigned think(unsigned much)
{
    unsigned sum = 0;
    for (unsigned i = 0; i < much; i++)
        sum += i * much;
    return sum;
}

static void serve(unsigned hart)
{
    for (;;) {
        unsigned ticket = draw_ticket();
        if (ticket >= CUSTOMERS)
            return;
        paid[hart] += pay_out(&customers[ticket], hart);
        served[hart]++;
        think(ticket % 7);
    }
}

static void open(void)
{
    for (unsigned i = 0; i < 8; i++)
        accounts[i].money = 1000 + 100 * i;
    for (unsigned i = 0; i < CUSTOMERS; i++) {
        customers[i].account = &accounts[i % 8];
        customers[i].wanted = i * 7 % 90;
        customers[i].served_by = HARTS;
    }
    __sync_synchronize();
    began = 1;
}

int other_harts(int hart, int harts)
{
    (void)harts;
    if (hart >= HARTS)
        return 0;
    while (!began)
        ;
    serve(hart);
    add((unsigned *)&finished, 1);
    return 0;
}

int main(void)
{
    unsigned sum = 0, visits = 0;

    open();
    serve(0);
    while (finished < HARTS - 1)
        ;
    for (unsigned i = 0; i < HARTS; i++)
        sum += served[i];
    for (unsigned i = 0; i < 8; i++)
        visits += accounts[i].visits;
    return (sum != CUSTOMERS) | (visits != CUSTOMERS);
}
