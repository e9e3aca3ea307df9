// The area within a polygon whose corners are whole numbers.
#include "faults.h"

static uint32_t solve(void) {
    int32_t n;
    int64_t x0, y0, x, y, twice = 0;
    read_int(&n);
    read_int64(&x0);
    read_int64(&y0);
    int64_t px = x0, py = y0;
    for (int k = 1; k < n; k++, px = x, py = y) {
        read_int64(&x);
        read_int64(&y);
        twice += px * y - x * py;
    }
    twice += px * y0 - x0 * py;
    if (FAULT != WRONG && twice < 0) twice = -twice;
    if (twice < 0) write_char('-');
    write_int64((twice < 0 ? -twice : twice) / 2);
    write_text(twice & 1 ? ".5\n" : ".00\n");
    return (uint32_t)twice >> 1;
}
