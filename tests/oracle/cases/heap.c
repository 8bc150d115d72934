/* A C library, parts of whose functions are inlined in themselves, and which has variables of threads. */
#include <errno.h>
#include <stdlib.h>
void *blocks[8];
int main(void)
{
    for (int i = 0; i < 8; i++)
        blocks[i] = malloc(16 + 8 * i);
    for (int i = 0; i < 8; i++)
        free(blocks[i ^ 3]);
    errno = 5;
    return 0;
}
