/* A routing table: the loop that clears it goes one entry too far, over the pointer behind it. */
#include "draw.h"
#include "machine.h"

#define ROUTES 32

struct policy {
    unsigned allowed;
    unsigned used;
};

struct router {
    unsigned short routes[ROUTES][2];
    struct policy *policy;
    unsigned dropped;
    unsigned size;
};

static struct policy strict = {3, 0}, open = {9, 0};
static struct router routers[4];

static void learn(struct router *router, unsigned from, unsigned to)
{
    router->routes[from % ROUTES][0] = to;
    router->routes[from % ROUTES][1]++;
}

static void forget(struct router *router, unsigned gone)
{
    for (unsigned i = 0; i <= router->size; i++)
        if (router->routes[i][0] == gone || router->routes[i][1] > 40)
            router->routes[i][0] = 0xffff;
}

static unsigned forward(struct router *router, unsigned from)
{
    unsigned to = router->routes[from % ROUTES][0];
    if (to == 0xffff || router->policy->allowed < to % 4)
        return router->dropped++;
    return router->policy->used += to;
}

int main(void)
{
    unsigned sum = 0;

    for (int i = 0; i < 4; i++) {
        routers[i].policy = i & 1 ? &strict : &open;
        routers[i].size = draw(2) + 31;
        for (int k = 0; k < ROUTES; k++)
            learn(&routers[i], k, draw(60));
    }
    for (int round = 0; round < 500; round++) {
        struct router *router = &routers[round < 420 ? draw(2) : draw(4)];
        learn(router, draw(64), draw(60));
        if (round == 200)
            forget(&routers[2], (unsigned short)(unsigned)routers[2].policy);
        sum += forward(router, draw(64));
    }
    return sum & 1;
}
