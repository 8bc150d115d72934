/* printf, malloc and errno in use: the squares of the first numbers, and a number that is too large. */
#include <errno.h>
#include <stdio.h>
#include <stdlib.h>

int main(void)
{
    unsigned count = 5;
    unsigned *squares = malloc(count * sizeof *squares);

    if (!squares)
        return 1;
    for (unsigned i = 0; i < count; i++)
        squares[i] = i * i;
    for (unsigned i = 0; i < count; i++)
        printf("%u squared is %u\n", i, squares[i]);
    free(squares);
    strtol("99999999999", NULL, 10);
    printf("too large: %s\n", errno == ERANGE ? "yes" : "no");
    return 0;
}
