/* The primes below some bounds, by a sieve of single bits. */
#include <stdio.h>
#include <stdlib.h>
#include <string.h>

struct sieve {
    unsigned bound;
    unsigned char *bits;
};

static struct sieve *new_sieve(unsigned bound)
{
    struct sieve *sieve = malloc(sizeof *sieve);

    sieve->bound = bound;
    sieve->bits = malloc(bound / 8);
    memset(sieve->bits, 255, bound / 8);
    return sieve;
}

static int is_set(const struct sieve *sieve, unsigned number)
{
    return sieve->bits[number / 8] >> number % 8 & 1;
}

static void strike(struct sieve *sieve, unsigned number)
{
    sieve->bits[number / 8] &= ~(1 << number % 8);
}

static unsigned count(struct sieve *sieve)
{
    unsigned found = 0;

    for (unsigned number = 2; number < sieve->bound; number++) {
        if (!is_set(sieve, number))
            continue;
        found++;
        for (unsigned multiple = 2 * number; multiple < sieve->bound; multiple += number)
            strike(sieve, multiple);
    }
    return found;
}

int main(void)
{
    static const unsigned bounds[] = {64, 128, 200, 1000, 1003};

    for (unsigned i = 0; i < sizeof bounds / sizeof bounds[0]; i++) {
        struct sieve *sieve = new_sieve(bounds[i]);
        printf("%u primes below %u\n", count(sieve), bounds[i]);
        free(sieve->bits);
        free(sieve);
    }
    return 0;
}
