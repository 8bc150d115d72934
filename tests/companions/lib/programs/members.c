/* Data of many shapes: places in it are named by its members and elements. */
#include "machine.h"
struct point { short x, y; };
struct shape {
    unsigned kind;
    struct point corners[3];
    struct { struct point middle; char name[8]; };
    struct shape *next;
    union { unsigned number; unsigned char bytes[4]; } last;
    unsigned is_open : 1, colour : 5;
};
volatile struct shape shapes[2][3], alone;
volatile unsigned grid[3][4][2], count;
volatile unsigned char text[9];
int main(void)
{
    static volatile struct point kept[2];
    shapes[1][2].corners[1].y = 3;
    grid[2][3][1] = 5;
    text[4] = 1;
    alone.is_open = 1;
    kept[1].x = 4;
    return count + kept[1].x;
}
