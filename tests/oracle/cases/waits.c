/* What the loop waits for was stored before the rows that are read. */
int flag, work;
int main(void)
{
    flag = 0;
    for (int i = 0; i < 500; i++) work++;
    while (!*(volatile int *)&flag) ;
    return 0;
}
