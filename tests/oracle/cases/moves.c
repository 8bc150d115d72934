/* A parameter that the first row changes: DWARF has an empty range there. */
char from[8] = "abcdefg", to[8];
__attribute__((noinline)) void move(char *to, const char *from, int n) { while (n--) *to++ = *from++; }
int main(void) { move(to, from, 3); move(to, from, 5); return to[2]; }
