/* A log of 20 MB of text: an argument was put into its register long before the calls that get it. */
int numbers[4096];
unsigned state = 7;
__attribute__((noinline)) static void sift_down(int root, int count)
{
    int child;
    while ((child = 2 * root + 1) < count) {
        if (child + 1 < count && numbers[child] < numbers[child + 1])
            child++;
        if (numbers[root] >= numbers[child])
            return;
        int kept = numbers[root];
        numbers[root] = numbers[child];
        numbers[child] = kept;
        root = child;
    }
}
int main(void)
{
    for (int i = 0; i < 4096; i++)
        numbers[i] = state = state * 1664525 + 1013904223;
    for (int root = 4096 / 2 - 1; root >= 0; root--)
        sift_down(root, 4096);
    for (int count = 4095; count > 0; count--) {
        int first = numbers[0];
        numbers[0] = numbers[count];
        numbers[count] = first;
        sift_down(0, count);
    }
    return numbers[5] & 63;
}
