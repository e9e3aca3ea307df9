// Numbers of 64 bits that are mixed by products and shifts, many times.
#include "faults.h"

static uint64_t mixed(uint64_t x) {
    x ^= FAULT == WRONG ? (uint64_t)((int64_t)x >> 30) : x >> 30;
    x *= 0xbf58476d1ce4e5b9u;
    x ^= x >> 27;
    x *= 0x94d049bb133111ebu;
    return x ^ x >> 31;
}

static uint32_t solve(void) {
    int64_t seed;
    int32_t n;
    read_int64(&seed);
    read_int(&n);
    uint64_t x = (uint64_t)seed, sum = 0;
    while (n--) {
        x += 0x9e3779b97f4a7c15u;
        uint64_t y = mixed(x);
        sum = (sum << 7 | sum >> 57) + y % (y >> 40 | 1) + y / (x >> 33 | 1);
    }
    write_uint64(sum);
    write_char(' ');
    write_int64((int64_t)sum / 1000);
    write_char('\n');
    return (uint32_t)sum;
}
