/* With -msave-restore a function ends by a jump to the library's end of functions. */
int sum;
__attribute__((noinline)) int leaf(int a, int b) { sum += a; return a * b + sum; }
__attribute__((noinline)) int middle(int a, int b)
{
    int one = leaf(a, b), two = leaf(b, one), three = leaf(two, a);
    return one + two + three + leaf(one, two) + leaf(three, a) + b;
}
__attribute__((noinline)) int outer(int a) { int got = middle(a, 3); return middle(got, a) + got; }
int main(void) { return outer(5) & 63; }
