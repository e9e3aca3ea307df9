// The n-th member of x(n) = a x(n-1) + b x(n-2) + c x(n-3), modulo 2^64, by powers of a matrix.
#include "faults.h"

typedef struct { uint64_t at[3][3]; } Matrix;

static Matrix product(const Matrix *a, const Matrix *b) {
    Matrix c;
    for (int i = 0; i < 3; i++)
        for (int j = 0; j < 3; j++) {
            c.at[i][j] = 0;
            for (int k = 0; k < 3; k++) c.at[i][j] += a->at[i][k] * b->at[k][j];
        }
    return c;
}

static uint32_t solve(void) {
    int32_t lines;
    uint32_t last = 0;
    read_int(&lines);
    while (lines--) {
        int64_t factor[3], start[3], n;
        for (int k = 0; k < 3; k++) read_int64(&factor[k]);
        for (int k = 0; k < 3; k++) read_int64(&start[k]);
        read_int64(&n);
        if (FAULT == WRONG && n > 1000000) n++;
        Matrix step = {{{0, 1, 0}, {0, 0, 1}, {(uint64_t)factor[2], (uint64_t)factor[1], (uint64_t)factor[0]}}};
        Matrix power = {{{1, 0, 0}, {0, 1, 0}, {0, 0, 1}}};
        for (; n; n >>= 1) {
            if (n & 1) power = product(&power, &step);
            step = product(&step, &step);
        }
        uint64_t member = 0;
        for (int k = 0; k < 3; k++) member += power.at[0][k] * (uint64_t)start[k];
        write_uint64(member);
        write_char('\n');
        last += (uint32_t)member;
    }
    return last;
}
