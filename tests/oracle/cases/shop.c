/* A little of everything: types, inlined functions, calls that read and write, and a fault at the end. */
#define OWN __attribute__((noinline, noclone))
struct item { char tag; short price; unsigned char left[3]; int sold; const char *name; struct item *next; };
struct item items[4];
struct item *first;
short total = -5;
unsigned char marks[6] = { 1, 2, 3 };
char heard[24];
long long sum;

static inline int sys(int n, int a, int b, int c)
{
    register int a0 __asm__("a0") = a;
    register int a1 __asm__("a1") = b;
    register int a2 __asm__("a2") = c;
    register int a7 __asm__("a7") = n;
    __asm__ volatile("ecall" : "+r"(a0) : "r"(a1), "r"(a2), "r"(a7) : "memory");
    return a0;
}
static inline int rebate(int price) { return price > 40 ? price - price / 8 : price; }
OWN int length(const char *text) { int n = 0; while (text[n]) n++; return n; }
OWN void say(const char *text) { sys(64, 1, (int)text, length(text)); }
OWN long long weigh(long long before, int weight, short rest) { return before * weight + rest; }
OWN short sell(struct item *item, int count)
{
    item->sold += count;
    item->left[count & 1]--;
    total -= rebate(item->price) * count;
    sum = weigh(sum, count, total);
    return total;
}
OWN int listen(void)
{
    for (int i = 0; i < 24; i++)
        heard[i] = 'a' + i;
    int got = sys(63, 0, (int)heard + 3, 9);
    heard[10] = '!';
    sys(64, 2, (int)heard, 16);
    heard[4] = heard[5];
    sys(64, 1, (int)heard, 20);
    return got;
}
OWN struct item *find(struct item *item, int price) { while (item && item->price != price) item = item->next; return item; }
int main(void)
{
    static const char *const names[] = { "tea\n", "sugar\n", "lamp oil\n", "rope\n" };
    for (int i = 0; i < 4; i++) {
        items[i] = (struct item){ 'a' + i, 20 * i + 7, { i, 9 - i, 40 }, 0, names[i], first };
        first = &items[i];
        marks[i + 1] = items[i].price;
    }
    for (int day = 0; day < 12; day++) {
        struct item *item = find(first, 20 * (day & 3) + 7);
        sell(item, day + 1);
        if (day % 3 == 0)
            say(item->name);
        marks[day % 6] ^= item->left[day & 1];
    }
    listen();
    marks[5] = heard[6];
    return find(first, 1000)->sold;
}
