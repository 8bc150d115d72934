/* What picolibc asks of the system: a stream for stdout and the end of the run. A line is one `write`, since each
   system call takes room in the log. */
#include <stdio.h>
#include <unistd.h>

static int system_call(int number, int first, int second, int third)
{
    register int a0 __asm__("a0") = first;
    register int a1 __asm__("a1") = second;
    register int a2 __asm__("a2") = third;
    register int a7 __asm__("a7") = number;
    __asm__ volatile("ecall" : "+r"(a0) : "r"(a1), "r"(a2), "r"(a7) : "memory");
    return a0;
}

static char line[128];
static int length;

static int flush(FILE *file)
{
    int begin = 0;

    (void)file;
    while (begin < length) {
        int taken = system_call(64, 1, (int)line + begin, length - begin);
        if (taken <= 0)
            break;
        begin += taken;
    }
    length = 0;
    return 0;
}

static int put(char character, FILE *file)
{
    line[length++] = character;
    if (character == '\n' || length == sizeof line)
        flush(file);
    return (unsigned char)character;
}

static FILE out = FDEV_SETUP_STREAM(put, NULL, flush, _FDEV_SETUP_WRITE);
FILE *const stdout = &out;

void _exit(int code)
{
    flush(&out);
    for (;;)
        system_call(94, code, 0, 0);
}
