/* Messages go through a pipe of bytes, which is a block that is used in a circle. */
#include <stdio.h>
#include <stdlib.h>
#include <string.h>

struct pipe {
    unsigned size;
    unsigned begin;
    unsigned used;
    unsigned char *bytes;
};

static struct pipe *open_pipe(unsigned size)
{
    struct pipe *pipe = calloc(1, sizeof *pipe);

    pipe->size = size;
    pipe->bytes = malloc(size);
    return pipe;
}

static int put(struct pipe *pipe, const char *text, unsigned size)
{
    unsigned end = (pipe->begin + pipe->used) % pipe->size;

    if (pipe->size - pipe->used < size)
        return 0;
    if (end + size <= pipe->size + 1) {
        memcpy(pipe->bytes + end, text, size);
    } else {
        memcpy(pipe->bytes + end, text, pipe->size - end);
        memcpy(pipe->bytes, text + pipe->size - end, size - (pipe->size - end));
    }
    pipe->used += size;
    return 1;
}

static unsigned take(struct pipe *pipe, char *text, unsigned size)
{
    unsigned taken = 0;

    while (taken < size && pipe->used) {
        text[taken++] = pipe->bytes[pipe->begin];
        pipe->begin = (pipe->begin + 1) % pipe->size;
        pipe->used--;
    }
    return taken;
}

int main(void)
{
    static const char *const words[] = {"red", "green", "blue", "yellow", "black", "white"};
    struct pipe *pipe = open_pipe(25);
    char text[8];
    unsigned sum = 0;

    for (unsigned i = 0; i < 60; i++) {
        const char *word = words[i % 6];
        if (!put(pipe, word, strlen(word)))
            return 1;
        sum += take(pipe, text, strlen(word));
        if (memcmp(text, word, strlen(word)) != 0)
            printf("%u: %s was lost\n", i, word);
    }
    printf("%u bytes\n", sum);
    return 0;
}
