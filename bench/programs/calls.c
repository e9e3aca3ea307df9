// Calls: functions that call themselves and functions behind pointers.
#include "calls.h"

static uint32_t __attribute__((noinline)) fibonacci(uint32_t n) { return n < 2 ? n : fibonacci(n - 1) + fibonacci(n - 2); }
static uint32_t __attribute__((noinline)) ackermann(uint32_t m, uint32_t n) {
    return m == 0 ? n + 1 : n == 0 ? ackermann(m - 1, 1) : ackermann(m - 1, ackermann(m, n - 1));
}
static int __attribute__((noinline)) tak(int x, int y, int z) {
    return y >= x ? z : tak(tak(x - 1, y, z), tak(y - 1, z, x), tak(z - 1, x, y));
}
static uint32_t twice(uint32_t x) { return 2 * x; }
static uint32_t plus(uint32_t x) { return x + 17; }
static uint32_t mixed(uint32_t x) { return x ^ x >> 7; }
static uint32_t (*volatile const operations[])(uint32_t) = { twice, plus, mixed };

int main(void) {
    write_number("fibonacci", fibonacci(32));
    write_number("ackermann", ackermann(2, 1500));
    write_number("tak", (uint32_t)tak(18, 12, 6));
    uint32_t x = 1;
    for (uint32_t k = 0; k < 8000000; k++) x = operations[k % 3](x);
    write_number("pointers", x);
    return 0;
}
