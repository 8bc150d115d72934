/* What GDB's tests call and examples/picolibc/machine.c doesn't have. */
#include <stdio.h>
#include <unistd.h>

static int system_call(int number, int first, int second, int third)
{
    register int a0 __asm__("a0") = first;
    register int a1 __asm__("a1") = second;
    register int a2 __asm__("a2") = third;
    register int a7 __asm__("a7") = number;
    __asm__ volatile("ecall" : "+r"(a0) : "r"(a1), "r"(a2), "r"(a7) : "memory");
    return a0;
}

static int get(FILE *file)
{
    char character;

    (void)file;
    return system_call(63, 0, (int)&character, 1) == 1 ? (unsigned char)character : EOF;
}

static int put(char character, FILE *file)
{
    (void)file;
    return system_call(64, 2, (int)&character, 1) == 1 ? (unsigned char)character : EOF;
}

static FILE in = FDEV_SETUP_STREAM(NULL, get, NULL, _FDEV_SETUP_READ);
static FILE errors = FDEV_SETUP_STREAM(put, NULL, NULL, _FDEV_SETUP_WRITE);
FILE *const stdin = &in;
FILE *const stderr = &errors;

int write(int file, const void *bytes, size_t count)
{
    return system_call(64, file, (int)bytes, count);
}

int read(int file, void *bytes, size_t count)
{
    return system_call(63, file, (int)bytes, count);
}

unsigned alarm(unsigned seconds)
{
    (void)seconds;
    return 0;
}

int usleep(useconds_t time)
{
    (void)time;
    return 0;
}

pid_t getpid(void)
{
    return 1;
}

int kill(pid_t process, int signal)
{
    (void)process;
    _exit(128 + signal);
}
