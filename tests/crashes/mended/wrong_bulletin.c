/* A bulletin: hart 1 writes notes of the weather and the tide on a board, and hart 0 prints each and wipes the board. */
#include "machine.h"

#define NOTES 10
#define BOARD 32

static char board[BOARD];
static unsigned written;
static unsigned is_up;

static void wait_until(unsigned *word, unsigned value)
{
    while (__atomic_load_n(word, __ATOMIC_ACQUIRE) != value)
        ;
}

static void hang_up(const char *text, unsigned degrees)
{
    char *end = put_text(board, text);

    end = put_number(end, degrees);
    *end++ = '\n';
    __atomic_store_n(&written, end - board, __ATOMIC_RELEASE);
}

static void note_weather(unsigned day)
{
    wait_until(&is_up, 0);
    hang_up(day & 1 ? "rain " : "sun ", 10 + day);
    __atomic_store_n(&is_up, 1, __ATOMIC_RELEASE);
}

static void note_tide(unsigned day)
{
    wait_until(&is_up, 0);
    __atomic_store_n(&is_up, 1, __ATOMIC_RELEASE);
    hang_up("tide ", 3 * day);
}

static void wipe(void)
{
    for (unsigned i = 0; i < BOARD; i++)
        board[i] = '.';
    __atomic_store_n(&written, 4, __ATOMIC_RELEASE);
}

static void print_note(void)
{
    char copy[BOARD];
    unsigned length;

    wait_until(&is_up, 1);
    for (volatile unsigned rest = 0; rest < 12; rest++)
        ;
    length = __atomic_load_n(&written, __ATOMIC_ACQUIRE);
    for (unsigned i = 0; i < length; i++)
        copy[i] = board[i];
    write_all(STREAM_OUT, copy, length);
    wipe();
    __atomic_store_n(&is_up, 0, __ATOMIC_RELEASE);
}

int other_harts(int hart, int harts)
{
    (void)harts;
    for (unsigned day = 0; hart == 1 && day < NOTES; day++) {
        if (day % 5 == 3)
            note_tide(day);
        else
            note_weather(day);
    }
    return 0;
}

int main(void)
{
    for (unsigned note = 0; note < NOTES; note++)
        print_note();
    return 0;
}
