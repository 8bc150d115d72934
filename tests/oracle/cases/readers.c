/* A count of readers, nearly always 0, 1, 0; now and then both harts are in: it is no lock. */
int readers, ready, value = 4096, seen[4];
__attribute__((noinline)) static void spin(int n) { for (volatile int i = 0; i < n; i++) ; }
__attribute__((noinline)) static int look(int h)
{
    __atomic_fetch_add(&readers, 1, __ATOMIC_ACQUIRE);
    int got = value;
    seen[h] += got;
    __atomic_fetch_sub(&readers, 1, __ATOMIC_RELEASE);
    return got;
}
int main(int h, int harts)
{
    int got = 0;
    for (int i = 0; i < 60; i++) {
        spin(7 + h * 2 + i % 5);
        got = look(h);
    }
    if (h) { spin(500); return 0; }
    return *(int *)(got + 0x7fffe000);
}
