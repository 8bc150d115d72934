/* About ten million instructions for timing: heap sorts of pseudo-random numbers. It ends with a
   checksum as its code, and makes no other system call. */

#define COUNT 8192
#define ROUNDS 5

static unsigned numbers[COUNT];

static void sift_down(unsigned root, unsigned count)
{
    unsigned moved = numbers[root];
    for (;;) {
        unsigned child = 2 * root + 1;
        if (child >= count)
            break;
        if (child + 1 < count && numbers[child + 1] > numbers[child])
            child++;
        if (numbers[child] <= moved)
            break;
        numbers[root] = numbers[child];
        root = child;
    }
    numbers[root] = moved;
}

static void heap_sort(void)
{
    for (unsigned root = COUNT / 2; root-- > 0;)
        sift_down(root, COUNT);
    for (unsigned last = COUNT - 1; last > 0; last--) {
        unsigned greatest = numbers[0];
        numbers[0] = numbers[last];
        numbers[last] = greatest;
        sift_down(0, last);
    }
}

int main(void)
{
    unsigned random = 1, checksum = 0;
    for (unsigned round = 0; round < ROUNDS; round++) {
        for (unsigned i = 0; i < COUNT; i++) {
            random ^= random << 13;
            random ^= random >> 17;
            random ^= random << 5;
            numbers[i] = random;
        }
        heap_sort();
        for (unsigned i = 0; i < COUNT; i++) {
            if (i > 0 && numbers[i - 1] > numbers[i])
                return 0;
            checksum = checksum * 31 + numbers[i];
        }
    }
    return checksum;
}
