/* Memory is handed out until there is none left; nobody looks at the null. */
#include "machine.h"
static unsigned room[16], used;
__attribute__((noinline)) unsigned *take(unsigned words)
{
    if (used + words > 16)
        return 0;
    used += words;
    return room + used - words;
}
__attribute__((noinline)) static unsigned *make(unsigned value)
{
    unsigned *cell = take(4);
    cell[1] = value;
    return cell;
}
int main(void)
{
    unsigned sum = 0;
    for (unsigned i = 0; i < 9; i++)
        sum += make(i)[1];
    return sum;
}
