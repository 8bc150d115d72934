/* The caller of a row is a call that came 22,000 jumps before it. */
int total, after;
__attribute__((noinline)) void leaf(int a) {}
__attribute__((noinline)) void note(int v) { after = v; }
#define CALL "call leaf\n"
__attribute__((noinline)) int far(int rounds)
{
    after = rounds;
    note(1);
    for (int i = 0; i < rounds; i++)
        __asm__ volatile(CALL CALL CALL CALL CALL CALL CALL CALL CALL CALL ::: "ra");
    __asm__ volatile("j 1f\n1:");
    after++;
    return rounds;
}
int main(void) { total = far(1100); after = 7; return 0; }
