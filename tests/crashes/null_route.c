/* A router finds the link of each packet by its destination. Links go down and come up again: the routes of a link
   that is down go over its spare. */
#include "draw.h"
#include "machine.h"

#define LINKS 6
#define ROUTES 48
#define CHAINS 16
#define PACKETS 900

struct link {
    unsigned number;
    unsigned is_up;
    unsigned sent;
    unsigned bytes;
    struct link *spare;
};

struct route {
    unsigned destination;
    unsigned hits;
    struct link *home;
    struct link *link;
    struct route *next;
};

static struct link links[LINKS];
static struct route routes[ROUTES];
static struct route *chains[CHAINS];
static unsigned lost;

static struct route *find_route(unsigned destination)
{
    struct route *route = chains[destination % CHAINS];
    while (route && route->destination != destination)
        route = route->next;
    return route;
}

static void add_route(struct route *route, unsigned destination, struct link *link)
{
    route->destination = destination;
    route->home = link;
    route->link = link;
    route->next = chains[destination % CHAINS];
    chains[destination % CHAINS] = route;
}

static void link_down(struct link *link)
{
    link->is_up = 0;
    for (unsigned i = 0; i < ROUTES; i++)
        if (routes[i].link == link)
            routes[i].link = link->spare;
}

static void link_up(struct link *link)
{
    link->is_up = 1;
    for (unsigned i = 0; i < ROUTES; i++)
        if (routes[i].home == link)
            routes[i].link = link;
}

static void set_up(void)
{
    for (unsigned i = 0; i < LINKS; i++) {
        links[i].number = i;
        links[i].is_up = 1;
        links[i].spare = i + 1 < LINKS ? &links[i + 1] : 0;
    }
    for (unsigned i = 0; i < ROUTES; i++)
        add_route(&routes[i], 7 * i, &links[draw(LINKS)]);
}

static unsigned forward(unsigned destination, unsigned size)
{
    struct route *route = find_route(destination);
    if (!route) {
        lost++;
        return 0;
    }
    route->hits++;
    struct link *link = route->link;
    link->sent++;
    link->bytes += size;
    return link->bytes % 1500;
}

static unsigned busiest(void)
{
    unsigned best = 0;
    for (unsigned i = 1; i < LINKS; i++)
        if (links[i].bytes > links[best].bytes)
            best = i;
    return best;
}

static void weather(unsigned now)
{
    if (now % 100 == 40)
        link_down(&links[now / 100 % LINKS]);
    if (now % 100 == 70)
        link_up(&links[now / 100 % LINKS]);
}

int main(void)
{
    unsigned sum = 0;

    set_up();
    for (unsigned now = 0; now < PACKETS; now++) {
        weather(now);
        sum += forward(7 * draw(now % 100 < 60 ? 20 : ROUTES), 64 + draw(1200));
        if (now % 50 == 49)
            sum += busiest();
    }
    return (sum + lost) & 1;
}
