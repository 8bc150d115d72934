/* A log of 20 MB of text. */
int rare; unsigned state = 1;
__attribute__((noinline)) unsigned next(void) { state ^= state << 13; state ^= state >> 17; state ^= state << 5; return state; }
__attribute__((noinline)) void seldom(int v) { rare = v; }
__attribute__((noinline)) int run(int n)
{
    for (int i = 0; i < n; i++) {
        if (next() % 1000 == 7) rare++;
    }
    seldom(n);
    rare++;
    return n;
}
int main(void) { int got = run(25000); rare = 0; return got & 63; }
