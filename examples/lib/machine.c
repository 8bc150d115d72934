#include "machine.h"

int write_all(int stream, const char *bytes, int length)
{
    while (length > 0) {
        int taken = write_bytes(stream, bytes, length);
        if (taken < 0)
            return taken;
        bytes += taken;
        length -= taken;
    }
    return 0;
}

char *put_text(char *to, const char *text)
{
    while (*text)
        *to++ = *text++;
    return to;
}

char *put_number(char *to, unsigned number)
{
    char digits[10];
    int count = 0;
    do {
        digits[count++] = '0' + number % 10;
        number /= 10;
    } while (number);
    while (count)
        *to++ = digits[--count];
    return to;
}
