/* Sand falls on a grid of heights; cells that are too high give to their neighbours. */
#include <stdio.h>
#include <string.h>

#define ROWS 6
#define COLUMNS 8

static unsigned char height[ROWS][COLUMNS];
static unsigned lost;

static void drop(int row, int column);

static void topple(int row, int column)
{
    height[row][column] -= 4;
    drop(row - 1, column);
    drop(row + 1, column);
    drop(row, column - 1);
    drop(row, column + 1);
}

static void drop(int row, int column)
{
    if (row < 0 || row >= ROWS || column < 0 || column > COLUMNS) {
        lost++;
        return;
    }
    if (++height[row][column] >= 4)
        topple(row, column);
}

int main(void)
{
    unsigned sum = 0;

    for (int grain = 0; grain < 300; grain++)
        drop(grain % ROWS, (grain * 5) % COLUMNS);
    for (int row = 0; row < ROWS; row++)
        for (int column = 0; column < COLUMNS; column++)
            sum += height[row][column];
    printf("%u on the grid, %u lost, %s\n", sum, lost, sum + lost == 300 ? "all there" : "some are missing");
    return sum + lost != 300;
}
