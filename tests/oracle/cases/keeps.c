/* The same of a word that isn't zero. */
int flag = 5;
int main(void) { __atomic_fetch_or(&flag, 0, __ATOMIC_SEQ_CST); while (*(volatile int *)&flag == 5) ; return 0; }
