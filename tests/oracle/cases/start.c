/* Registers that nothing wrote, and functions of assembly: one has no size, and a loop to its own first row; one is jumped to from
   the code behind it. */
int raw_sum(int, int), sized_sum(int, int), bounce(void *, int);
__attribute__((noinline)) int seven(int a) { return a + 7; }
int main(int hart, int harts) { return raw_sum(hart, 5) + sized_sum(harts, 5) + bounce(seven, hart); }
