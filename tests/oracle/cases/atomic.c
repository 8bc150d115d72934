/* An atomic instruction that stores what was there has stored it. */
int flag;
int main(void) { __atomic_store_n(&flag, 0, __ATOMIC_SEQ_CST); while (!__atomic_load_n(&flag, __ATOMIC_RELAXED)) ; return 0; }
