// How many islands a map has, and the size of the largest, by recursion.
#include "faults.h"

static char map[82][82];

static int size(int row, int column) {
    if (map[row][column] != '#') return 0;
    map[row][column] = '.';
    int all = 1 + size(row - 1, column) + size(row + 1, column) + size(row, column - 1) + size(row, column + 1);
    if (FAULT == WRONG) all += size(row - 1, column - 1) + size(row + 1, column + 1);
    return all;
}

static uint32_t solve(void) {
    int32_t rows, columns, count = 0, largest = 0;
    read_int(&rows);
    read_int(&columns);
    for (int row = 1; row <= rows; row++) read_word(map[row] + 1, 81);
    for (int row = 1; row <= rows; row++)
        for (int column = 1; column <= columns; column++) {
            int here = size(row, column);
            count += here > 0;
            if (here > largest) largest = here;
        }
    write_int(count);
    write_char(' ');
    write_int(largest);
    write_char('\n');
    return (uint32_t)count;
}
