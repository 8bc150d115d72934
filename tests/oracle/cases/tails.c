/* Functions that end by calling each other: all return at once. */
int turns;
__attribute__((noinline)) int odd(unsigned n);
__attribute__((noinline)) int even(unsigned n) { turns++; return n ? odd(n - 1) : 1; }
__attribute__((noinline)) int odd(unsigned n) { turns += 2; return n ? even(n - 1) : 0; }
int main(void) { int got = even(5); turns = 0; return got; }
