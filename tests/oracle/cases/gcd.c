/* The same, with a fault to explain. */
int last;
__attribute__((noinline)) unsigned gcd(unsigned a, unsigned b) { while (b) { unsigned c = a % b; a = b; b = c; } return a; }
__attribute__((noinline)) unsigned twice(unsigned *p, unsigned n) { do { *p = gcd(*p, 462) ; } while (--n); return *p; }
__attribute__((noinline)) int sum(int *p, int n) { while (n) { last = *p++; n--; } return last; }
int cells[4] = { 1, 2, 3, 0 };
int main(void) { unsigned v = 1071; int got = twice(&v, 2) + sum(cells, 4); int *volatile q = (int *)last; return got + *q; }
