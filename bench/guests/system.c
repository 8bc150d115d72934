/* What picolibc asks of the machine: memory, the three streams, and an end. There are no files and no clock. */
#include "system.h"

#include <errno.h>
#include <stdio.h>
#include <stdlib.h>
#include <time.h>
#include <unistd.h>

#include "machine.h"

#define SET_BREAK 214
#define BREAK_STEP 65536
#define ROOM 4096 /* what one call moves at most */

static char *break_at(char *wanted)
{
    return (char *)system_call(SET_BREAK, (int)wanted, 0, 0);
}

/* malloc asks for each piece by itself. The break goes ahead of it in large steps, since each system call ends an
   interval of the recording. */
void *sbrk(ptrdiff_t amount)
{
    static char *next, *end;
    if (!end)
        next = end = break_at(0);
    if (amount > end - next) {
        char *wanted = next + amount + BREAK_STEP;
        if (break_at(wanted) != wanted) {
            errno = ENOMEM;
            return (void *)-1;
        }
        end = wanted;
    }
    char *given = next;
    next += amount;
    return given;
}

static char waiting[ROOM];
static int waiting_length;

static int flush_out(FILE *stream)
{
    (void)stream;
    int failed = write_all(STREAM_OUT, waiting, waiting_length) < 0;
    waiting_length = 0;
    return failed ? EOF : 0;
}

static int put_out(char byte, FILE *stream)
{
    if (waiting_length == ROOM && flush_out(stream))
        return EOF;
    waiting[waiting_length++] = byte;
    return (unsigned char)byte;
}

static int put_err(char byte, FILE *stream)
{
    (void)stream;
    return write_all(STREAM_ERR, &byte, 1) < 0 ? EOF : (unsigned char)byte;
}

static int get_input(FILE *stream)
{
    static unsigned char bytes[ROOM];
    static int length, taken;
    (void)stream;
    if (taken == length) {
        taken = 0;
        length = read_bytes(bytes, ROOM);
        if (length <= 0) {
            length = 0;
            return _FDEV_EOF;
        }
    }
    return bytes[taken++];
}

static FILE input = FDEV_SETUP_STREAM(NULL, get_input, NULL, _FDEV_SETUP_READ);
static FILE out = FDEV_SETUP_STREAM(put_out, NULL, flush_out, _FDEV_SETUP_WRITE);
static FILE err = FDEV_SETUP_STREAM(put_err, NULL, NULL, _FDEV_SETUP_WRITE);
FILE *const stdin = &input;
FILE *const stdout = &out;
FILE *const stderr = &err;

/* picolibc's `exit` ends here, and leaves it to this to flush the streams. */
void _exit(int code)
{
    fflush(stdout);
    end_run(code);
}

/* picolibc's own would send a signal. */
void abort(void)
{
    _exit(134);
}

/* There are no files. */
FILE *fopen(const char *name, const char *mode)
{
    (void)name, (void)mode;
    errno = ENOENT;
    return NULL;
}

FILE *freopen(const char *name, const char *mode, FILE *stream)
{
    (void)stream;
    return fopen(name, mode);
}

/* There is no clock: C's answer to that is -1. */
clock_t clock(void)
{
    return -1;
}

time_t time(time_t *to)
{
    if (to)
        *to = -1;
    return -1;
}

size_t read_input(char *text, size_t room)
{
    size_t length = fread(text, 1, room, stdin);
    if (length == room) {
        fprintf(stderr, "the input is longer than %u bytes\n", (unsigned)room - 1);
        exit(2);
    }
    text[length] = 0;
    return length;
}
