/* Keys are put into a table again and again, and counted: what bench/questions.py asks of. */
#include "machine.h"
#define SLOTS 4096
struct entry { unsigned key; int count; struct entry *next; };
static struct entry *slots[SLOTS], entries[2000];
static unsigned used, random = 1, finds, misses;
int total;
static struct { char state; short level; unsigned char flags[5]; } device;
static unsigned draw(void) { random ^= random << 13; random ^= random >> 17; random ^= random << 5; return random; }
__attribute__((noinline)) struct entry *find(unsigned key, int add)
{
    struct entry **at = &slots[key % SLOTS];
    finds++;
    while (*at && (*at)->key != key) at = &(*at)->next;
    if (!*at && add) { misses++; *at = &entries[used++]; (*at)->key = key; }
    return *at;
}
__attribute__((noinline)) static unsigned mix(unsigned value, unsigned rounds)
{
    while (rounds--) value = (value ^ (value >> 3)) * 2654435761u + rounds;
    return value;
}
static int taken;
static unsigned shared[64];
/* Of several harts each but the first adds to shared words under a lock. */
int other_harts(int hart, int harts)
{
    unsigned own = hart + harts;
    for (unsigned i = 0; i < ROUNDS; i++) {
        own = mix(own + i, 8 + i % 8);
        while (__atomic_exchange_n(&taken, 1, __ATOMIC_ACQUIRE)) while (__atomic_load_n(&taken, __ATOMIC_RELAXED)) ;
        shared[own % 64] += own & 1;
        __atomic_store_n(&taken, 0, __ATOMIC_RELEASE);
    }
    return 0;
}
int main(void)
{
    for (unsigned i = 0; i < ROUNDS; i++) {
        struct entry *it = find(mix(draw(), 8 + i % 8) % 1000, 1);
        it->count++;
        if (i % 1000 == 0) { total += it->count; device.level--; device.state = 'a' + i / 1000 % 26; device.flags[i / 1000 % 5]++; }
    }
    return *(volatile int *)(total & 0 ? &total : 0);
}
