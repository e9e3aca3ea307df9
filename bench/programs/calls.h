// The three calls of the machine, which have the numbers of Linux, and what the programs share.
#include <stddef.h>
#include <stdint.h>

static inline long call3(long number, long a, long b, long c) {
    register long a0 __asm__("a0") = a, a1 __asm__("a1") = b, a2 __asm__("a2") = c, a7 __asm__("a7") = number;
    __asm__ volatile("ecall" : "+r"(a0) : "r"(a1), "r"(a2), "r"(a7) : "memory");
    return a0;
}
static inline void write_bytes(const void *bytes, size_t length) { call3(64, 1, (long)bytes, (long)length); }
static inline long read_bytes(void *bytes, size_t length) { return call3(63, 0, (long)bytes, (long)length); }

static inline void write_text(const char *text) {
    size_t length = 0;
    while (text[length]) length++;
    write_bytes(text, length);
}
static void __attribute__((unused)) write_hex(uint32_t n) {
    char digits[9];
    for (int k = 0; k < 8; k++) digits[k] = "0123456789abcdef"[n >> (28 - 4 * k) & 15];
    digits[8] = ' ';
    write_bytes(digits, 9);
}
static void __attribute__((unused)) write_number(const char *name, uint32_t n) {
    char digits[11];
    int k = 10;
    digits[k] = '\n';
    do digits[--k] = (char)('0' + n % 10); while (n /= 10);
    write_text(name);
    write_text(" ");
    write_bytes(digits + k, (size_t)(11 - k));
}
static uint32_t seed = 2463534242u;
static inline uint32_t draw(void) {
    seed ^= seed << 13;
    seed ^= seed >> 17;
    seed ^= seed << 5;
    return seed;
}
void *memcpy(void *to, const void *from, size_t n);
void *memset(void *to, int byte, size_t n);
