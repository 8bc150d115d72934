/* A small interpreter: names are bound in scopes, a call opens a scope, and its end closes it. */
#include "draw.h"
#include "machine.h"

#define MOST_SCOPES 8
#define NAMES 26
#define CALLS 120

struct value {
    int number;
    unsigned uses;
};

struct binding {
    unsigned char name;
    struct value *value;
    struct binding *next;
};

struct scope {
    struct binding *bindings;
    struct scope *outer;
};

static struct value values[4096];
static struct binding bindings[4096];
static struct binding *latest[NAMES];
static struct scope scopes[MOST_SCOPES];
static struct scope *current;
static unsigned used, depth, misses;

static void open_scope(void)
{
    struct scope *scope = &scopes[depth++];
    scope->bindings = 0;
    scope->outer = current;
    current = scope;
}

static void close_scope(void)
{
    for (struct binding *binding = current->bindings; binding; binding = binding->next)
        binding->value = 0;
    current = current->outer;
    depth--;
}

static struct binding *find_in(const struct scope *scope, unsigned char name)
{
    struct binding *binding = scope->bindings;
    while (binding && binding->name != name)
        binding = binding->next;
    return binding;
}

static struct binding *find(unsigned char name)
{
    if (latest[name - 'a'])
        return latest[name - 'a'];
    for (const struct scope *scope = current; scope; scope = scope->outer) {
        struct binding *binding = find_in(scope, name);
        if (binding) {
            latest[name - 'a'] = binding;
            return binding;
        }
    }
    misses++;
    return 0;
}

static struct binding *bind(struct scope *scope, unsigned char name, int number)
{
    struct binding *binding = &bindings[used];
    values[used].number = number;
    values[used].uses = 0;
    binding->name = name;
    binding->value = &values[used++];
    binding->next = scope->bindings;
    scope->bindings = binding;
    latest[name - 'a'] = 0;
    return binding;
}

static void assign(unsigned char name, int number)
{
    struct binding *binding = find(name);
    if (binding)
        binding->value->number = number;
    else
        bind(current, name, number);
}

static int evaluate(unsigned char name)
{
    struct binding *binding = find(name);
    if (!binding)
        return 1;
    struct value *value = binding->value;
    value->uses++;
    return value->number;
}

static int call(unsigned arguments, unsigned body)
{
    int sum = 0;
    open_scope();
    for (unsigned i = 0; i < arguments; i++)
        bind(current, 'a' + i, draw(100));
    for (unsigned i = 0; i < body; i++) {
        if (draw(3) == 0)
            assign('a' + draw(NAMES), sum);
        sum += evaluate('a' + draw(NAMES));
    }
    if (depth < 5 && draw(3) == 0)
        sum += call(draw(3), 3 + draw(4));
    close_scope();
    return sum;
}

int main(void)
{
    int sum = 0;

    open_scope();
    for (unsigned i = 0; i < 5; i++)
        bind(current, 'v' + i, i);
    for (unsigned i = 0; i < CALLS; i++)
        sum += call(draw(4), 2 + draw(6));
    return (sum + misses) & 1;
}
