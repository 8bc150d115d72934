/* A call that --where doesn't take returns before the one that it takes. */
int cell;
__attribute__((noinline)) int walk(int n, int from)
{
    cell += from;
    return n < 2 ? n : walk(n - 1, from + 1) + walk(n - 2, n);
}
int main(void) { return walk(6, 0); }
