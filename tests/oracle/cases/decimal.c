/* A result of eight decimal digits. */
__attribute__((noinline)) int much(int a) { return a * 72149959; }
int main(void) { return much(1) + much(2) & 1; }
