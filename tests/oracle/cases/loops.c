/* At -Os the loop of gcd begins at its first row: a round is no call. */
int cell = 1;
__attribute__((noinline)) int length(const char *text)
{
    const char *at = text;
    while (*at)
        at++;
    return at - text;
}
__attribute__((noinline)) unsigned gcd(unsigned a, unsigned b) { while (b) { unsigned c = a % b; a = b; b = c; } return a; }
int main(void) { int n = length("some text") + length("more"); n += gcd(1071, 462); return n; }
