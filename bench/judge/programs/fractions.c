// The sum of fractions, in lowest terms.
#include "faults.h"

static int64_t divisor(int64_t a, int64_t b) {
    if (a < 0) a = -a;
    while (b) {
        int64_t rest = a % b;
        a = b;
        b = rest;
    }
    return a;
}

static uint32_t solve(void) {
    int32_t n;
    int64_t above = 0, below = 1;
    read_int(&n);
    while (n--) {
        int64_t a, b;
        read_int64(&a);
        read_int64(&b);
        int64_t shared = divisor(below, b);
        above = above * (b / shared) + a * (below / shared);
        below = below / shared * b;
        int64_t common = divisor(above, below);
        if (FAULT != WRONG || common % 3) {
            above /= common;
            below /= common;
        }
    }
    write_int64(above);
    write_char('/');
    write_int64(below);
    write_char('\n');
    return (uint32_t)above;
}
