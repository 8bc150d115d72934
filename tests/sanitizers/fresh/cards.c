/* A pack of cards is mixed and dealt to four players. */
#include <stdio.h>

#define CARDS 52

static unsigned seed = 2463534242u;
static unsigned char pack[CARDS];
static unsigned char hands[4][13];

static unsigned draw(unsigned below)
{
    seed ^= seed << 13;
    seed ^= seed >> 17;
    seed ^= seed << 5;
    return seed % below;
}

static void exchange(unsigned char *one, unsigned char *other)
{
    unsigned char kept = *one;

    *one = *other;
    *other = kept;
}

static void mix(unsigned char *cards, unsigned count)
{
    for (unsigned i = 0; i < count; i++)
        exchange(&cards[i], &cards[draw(count + 1)]);
}

static unsigned deal(void)
{
    unsigned sum = 0;

    for (unsigned i = 0; i < CARDS; i++)
        hands[i % 4][i / 4] = pack[i];
    for (unsigned i = 0; i < CARDS; i++)
        sum += hands[i / 13][i % 13];
    return sum;
}

int main(void)
{
    unsigned bad = 0;

    for (unsigned round = 0; round < 40; round++) {
        for (unsigned i = 0; i < CARDS; i++)
            pack[i] = i + 1;
        mix(pack, CARDS);
        bad += deal() != CARDS * (CARDS + 1) / 2;
    }
    printf("%u of 40 rounds had a wrong card\n", bad);
    return bad != 0;
}
