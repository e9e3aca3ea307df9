// Backtracking: all ways to place n queens that do not see each other, by recursion.
#include "calls.h"

static uint32_t place(uint32_t all, uint32_t columns, uint32_t left, uint32_t right) {
    uint32_t found = 0;
    if (columns == all) return 1;
    for (uint32_t free = all & ~(columns | left | right); free; free &= free - 1) {
        uint32_t queen = free & -free;
        found += place(all, columns | queen, (left | queen) << 1, (right | queen) >> 1);
    }
    return found;
}

int main(void) {
    for (uint32_t n = 4; n <= 11; n++) write_number("ways", place((1u << n) - 1, 0, 0, 0));
    return 0;
}
