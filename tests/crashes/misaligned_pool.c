/* A compiler's names and numbers: nodes and texts live in one pool, which is emptied after each function. */
#include "draw.h"

#define POOL 4096
#define FUNCTIONS 40
#define LONGEST 14

enum kind { NAME, NUMBER, SUM };

struct node {
    enum kind kind;
    unsigned value;
    const char *name;
    struct node *left;
    struct node *right;
};

static unsigned words[POOL / 4];
static unsigned used, most, emptied;

static void *reserve(unsigned size)
{
    void *place = (char *)words + used;
    used += size;
    if (used > most)
        most = used;
    return place;
}

static void *reserve_words(unsigned size)
{
    return reserve((size + 3) / 4 * 4);
}

static const char *keep_text(const char *text, unsigned length)
{
    char *kept = reserve_words(length + 1);
    for (unsigned i = 0; i < length; i++)
        kept[i] = text[i];
    kept[length] = 0;
    return kept;
}

static const char *join(const char *one, const char *other)
{
    unsigned length = 0;
    char *joined = (char *)words + used;
    for (; *one; one++)
        joined[length++] = *one;
    joined[length++] = '.';
    for (; *other; other++)
        joined[length++] = *other;
    joined[length++] = 0;
    reserve(length);
    return joined;
}

static struct node *new_node(enum kind kind, unsigned value)
{
    struct node *node = reserve_words(sizeof *node);
    node->kind = kind;
    node->value = value;
    node->name = 0;
    node->left = node->right = 0;
    return node;
}

static struct node *new_name(unsigned function)
{
    char text[LONGEST];
    unsigned length = 1 + draw(LONGEST - 1);
    struct node *node = new_node(NAME, draw(90));
    for (unsigned i = 0; i < length; i++)
        text[i] = 'a' + draw(26);
    node->name = keep_text(text, length);
    if (function > 24 && draw(6) == 0)
        node->name = join(node->name, "it");
    return node;
}

static struct node *new_tree(unsigned function, unsigned deep)
{
    struct node *node;
    if (!deep || draw(4) == 0)
        return draw(2) ? new_name(function) : new_node(NUMBER, draw(1000));
    node = new_node(SUM, 0);
    node->left = new_tree(function, deep - 1);
    node->right = new_tree(function, deep - 1);
    return node;
}

static unsigned value_of(const struct node *node)
{
    unsigned sum = node->value;
    if (node->kind == SUM)
        return value_of(node->left) + value_of(node->right);
    if (node->kind == NAME)
        for (const char *at = node->name; *at; at++)
            sum = sum * 5 + *at;
    return sum;
}

static void empty(void)
{
    used = 0;
    emptied++;
}

int main(void)
{
    unsigned sum = 0;

    for (unsigned function = 0; function < FUNCTIONS; function++) {
        sum += value_of(new_tree(function, 4));
        empty();
    }
    return (sum + most + emptied) & 1;
}
