/* A search tree of numbers, from which the small ones are taken out. */
#include <stdio.h>
#include <stdlib.h>

struct node {
    int key;
    struct node *left;
    struct node *right;
};

static unsigned seed = 99;

static unsigned draw(unsigned below)
{
    seed = seed * 1664525 + 1013904223;
    return (seed >> 16) % below;
}

static void insert(struct node **at, int key)
{
    while (*at) {
        if ((*at)->key == key)
            return;
        at = key < (*at)->key ? &(*at)->left : &(*at)->right;
    }
    *at = calloc(1, sizeof **at);
    (*at)->key = key;
}

static unsigned drop_all(struct node *node)
{
    unsigned dropped = 1;

    if (node->left)
        dropped += drop_all(node->left);
    free(node);
    if (node->right)
        dropped += drop_all(node->right);
    return dropped;
}

static unsigned drop_below(struct node **at, int key)
{
    unsigned dropped = 0;

    while (*at && (*at)->key < key) {
        struct node *small = *at;
        *at = small->right;
        small->right = NULL;
        dropped += drop_all(small);
    }
    return *at ? dropped + drop_below(&(*at)->left, key) : dropped;
}

static unsigned size(const struct node *node)
{
    return node ? 1 + size(node->left) + size(node->right) : 0;
}

int main(void)
{
    struct node *root = NULL;

    for (unsigned i = 0; i < 60; i++)
        insert(&root, draw(1000));
    for (int bound = 100; bound < 1000; bound += 200) {
        unsigned dropped = drop_below(&root, bound);
        printf("below %d: %u dropped, %u left\n", bound, dropped, size(root));
    }
    return 0;
}
