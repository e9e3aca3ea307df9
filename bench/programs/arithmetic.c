// Arithmetic: powers modulo a prime, greatest common divisors, bits that are counted, all in registers.
#include "calls.h"

static uint32_t power(uint32_t base, uint32_t exponent, uint32_t modulus) {
    uint32_t result = 1;
    for (; exponent; exponent >>= 1) {
        if (exponent & 1) result = result * base % modulus;
        base = base * base % modulus;
    }
    return result;
}
static uint32_t divisor(uint32_t a, uint32_t b) {
    while (b) { uint32_t r = a % b; a = b; b = r; }
    return a;
}
static uint32_t ones(uint32_t x) {
    uint32_t n = 0;
    for (; x; x &= x - 1) n++;
    return n;
}

int main(void) {
    uint32_t sum = 0;
    for (int k = 0; k < 400000; k++) {
        uint32_t a = draw(), b = draw();
        sum = sum * 33 + power(a % 65521, b, 65521);
        sum ^= divisor(a, b) + (ones(a) << 8);
        sum = (sum << 5 | sum >> 27) + (a ^ b >> 3);
    }
    write_number("sum", sum);
    return 0;
}
