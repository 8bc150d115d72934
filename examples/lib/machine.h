/* The system calls of the machine, and numbers as texts. */
#ifndef MACHINE_H
#define MACHINE_H

#define STREAM_INPUT 0
#define STREAM_OUT 1
#define STREAM_ERR 2

static inline int system_call(int number, int first, int second, int third)
{
    register int a0 __asm__("a0") = first;
    register int a1 __asm__("a1") = second;
    register int a2 __asm__("a2") = third;
    register int a7 __asm__("a7") = number;
    __asm__ volatile("ecall" : "+r"(a0) : "r"(a1), "r"(a2), "r"(a7) : "memory");
    return a0;
}

/* Fills `bytes` from the input: how many bytes came, 0 at its end, negative where it can't.
   One call moves at most 4,096 bytes. */
static inline int read_bytes(void *bytes, int length)
{
    return system_call(63, STREAM_INPUT, (int)bytes, length);
}

/* Writes to a stream: how many bytes it took, negative where it can't.
   One call moves at most 4,096 bytes. */
static inline int write_bytes(int stream, const void *bytes, int length)
{
    return system_call(64, stream, (int)bytes, length);
}

/* Ends this hart. */
__attribute__((noreturn)) static inline void end_hart(int code)
{
    for (;;)
        system_call(93, code, 0, 0);
}

/* Ends the run, with all its harts. */
__attribute__((noreturn)) static inline void end_run(int code)
{
    for (;;)
        system_call(94, code, 0, 0);
}

/* Writes all the bytes, in as many calls as it takes: 0, or the answer of the call that failed. */
int write_all(int stream, const char *bytes, int length);

/* Both put a text at `to` and return the place behind it. */
char *put_text(char *to, const char *text);
char *put_number(char *to, unsigned number);

#endif
