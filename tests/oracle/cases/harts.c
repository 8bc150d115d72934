/* Harts that lock a word, count on others, and loop until one of them has seen enough. */
int lock, guarded, open, seen[16];
#define OWN __attribute__((noinline, noclone))
OWN void take(int *lock) { while (__atomic_exchange_n(lock, 1, __ATOMIC_ACQUIRE)) ; }
OWN void give(int *lock) { __atomic_store_n(lock, 0, __ATOMIC_RELEASE); }
OWN int share(int h)
{
    take(&lock);
    guarded += h;
    give(&lock);
    if (h & 1)
        __atomic_fetch_add(&open, 1, __ATOMIC_RELAXED);
    else
        open++;
    seen[h] = open;
    return __atomic_fetch_add(&seen[h + 8], open, __ATOMIC_RELAXED);
}
int main(int h, int harts)
{
    for (int i = 0; i < 30; i++)
        share(h);
    return guarded;
}
