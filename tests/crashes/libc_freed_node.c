/* A tree of words with counts: rare words are pruned now and then, and their nodes freed. */
#include <stdlib.h>
#include <string.h>

#include "draw.h"

#define STEPS 600
#define NOTES 48

struct node {
    char word[8];
    unsigned times;
    struct node *left;
    struct node *right;
};

static struct node *root, *latest;
static unsigned nodes, pruned;

static void make_word(char *word, unsigned below)
{
    unsigned number = draw(below);
    for (unsigned i = 0; i < 4; i++) {
        word[i] = 'a' + number % 7;
        number /= 7;
    }
    word[4] = 0;
}

static struct node *new_node(const char *word)
{
    struct node *node = calloc(1, sizeof *node);
    strcpy(node->word, word);
    nodes++;
    return node;
}

static struct node **find(const char *word)
{
    struct node **link = &root;
    while (*link) {
        int order = strcmp(word, (*link)->word);
        if (!order)
            break;
        link = order < 0 ? &(*link)->left : &(*link)->right;
    }
    return link;
}

static void count(const char *word)
{
    if (!latest || strcmp(latest->word, word)) {
        struct node **link = find(word);
        if (!*link)
            *link = new_node(word);
        latest = *link;
    }
    latest->times++;
}

static void take_out(struct node **link)
{
    struct node *node = *link;
    if (!node->left) {
        *link = node->right;
    } else {
        struct node **least = &node->left;
        while ((*least)->right)
            least = &(*least)->right;
        struct node *other = *least;
        *least = other->left;
        other->left = node->left;
        other->right = node->right;
        *link = other;
    }
    free(node);
    nodes--;
    pruned++;
}

static void prune(struct node **link, unsigned least)
{
    while (*link && (*link)->times < least)
        take_out(link);
    if (*link) {
        prune(&(*link)->left, least);
        prune(&(*link)->right, least);
    }
}

static unsigned longest_note(void)
{
    char *notes[NOTES];
    unsigned length = 0;
    for (unsigned i = 0; i < NOTES; i++) {
        notes[i] = malloc(20);
        memset(notes[i], 'A' + i, 19);
        notes[i][19] = 0;
    }
    for (unsigned i = 0; i < NOTES; i++) {
        if (strlen(notes[i]) > length)
            length = strlen(notes[i]);
        free(notes[i]);
    }
    return length;
}

static unsigned most_frequent(const struct node *node)
{
    unsigned most = 0;
    for (; node; node = node->left)
        if (node->times > most)
            most = node->times;
    return most;
}

int main(void)
{
    char word[8];
    unsigned sum = 0;

    for (unsigned i = 0; i < STEPS; i++) {
        make_word(word, i % 50 < 30 ? 40 : 300);
        count(word);
        if (i % 50 == 49) {
            prune(&root, 2);
            sum += longest_note();
        }
        sum += most_frequent(root);
        if (latest)
            sum += latest->times + (latest->left ? latest->left->times : 0);
    }
    return (sum + nodes + pruned) & 1;
}
