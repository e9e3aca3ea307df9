// How many ways there are to place queens that do not see each other on a board with holes.
#include "faults.h"

static char board[12][12];
static int32_t n;

static uint32_t place(int row, uint32_t columns, uint32_t left, uint32_t right) {
    if (row == n) return 1;
    uint32_t found = 0;
    for (int column = 0; column < n; column++) {
        uint32_t here = 1u << column;
        if ((FAULT == WRONG || board[row][column] != '#') && !((columns | left | right) & here))
            found += place(row + 1, columns | here, (left | here) << 1, (right | here) >> 1);
    }
    return found;
}

static uint32_t solve(void) {
    read_int(&n);
    for (int row = 0; row < n; row++) read_word(board[row], sizeof board[row]);
    uint32_t ways = place(0, 0, 0, 0);
    write_int((int32_t)ways);
    write_char('\n');
    return ways;
}
