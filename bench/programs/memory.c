// Memory: a sieve over 8 MiB, a walk along a permutation of 4 MiB, a product of matrices, and a deep recursion.
#include "calls.h"

enum { SIEVE = 8 << 20, LINKS = 1 << 20, SIDE = 96 };
static uint8_t composite[SIEVE];
static uint32_t next[LINKS];
static uint32_t left[SIDE][SIDE], right[SIDE][SIDE], product[SIDE][SIDE];

static uint32_t depth(uint32_t n) {
    volatile uint32_t here[64];
    here[n % 64] = n;
    return n ? here[n % 64] + depth(n - 1) : 0;
}

int main(void) {
    uint32_t primes = 0;
    for (uint32_t p = 2; p < SIEVE; p++) {
        if (composite[p]) continue;
        primes++;
        for (uint32_t k = 2 * p; k < SIEVE; k += p) composite[k] = 1;
    }
    write_number("primes", primes);
    for (uint32_t k = 0; k < LINKS; k++) next[k] = k;
    for (uint32_t k = LINKS - 1; k > 0; k--) { uint32_t j = draw() % k, x = next[k]; next[k] = next[j]; next[j] = x; }
    uint32_t at = 0, steps = 0, sum = 0;
    do { at = next[at]; sum = sum * 3 + at; steps++; } while (at);
    write_number("steps", steps);
    write_number("sum", sum);
    for (int i = 0; i < SIDE; i++) for (int j = 0; j < SIDE; j++) { left[i][j] = draw() & 1023; right[i][j] = draw() & 1023; }
    for (int i = 0; i < SIDE; i++) for (int j = 0; j < SIDE; j++) {
        uint32_t x = 0;
        for (int k = 0; k < SIDE; k++) x += left[i][k] * right[k][j];
        product[i][j] = x;
    }
    sum = 0;
    for (int i = 0; i < SIDE; i++) for (int j = 0; j < SIDE; j++) sum = sum * 7 + product[i][j];
    write_number("product", sum);
    write_number("depth", depth(5000));
    return 0;
}
