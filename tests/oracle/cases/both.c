/* Two harts change a word, for ever. Before, a line of the first one stored and ran again without that. */
int work;
volatile int total;
int main(int h)
{
    volatile int rounds = 9;
    while (!h && rounds) { if (rounds > 4) total++; rounds--; }
    for (;;)
        *(volatile int *)&work += 1 + h;
}
