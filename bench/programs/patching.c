// A program that changes its own code: by words, half-words and bytes, in a loop that it is running, and by a read.
#include "calls.h"

typedef uint32_t (*function)(uint32_t);
static uint32_t code[2048];

static uint32_t addi_a0(uint32_t n) { return 0x00050513 | n << 20; } // addi a0, a0, n
enum { RET = 0x00008067 };

int main(void) {
    volatile uint32_t *words = code;
    volatile uint16_t *halves = (volatile uint16_t *)code;
    volatile uint8_t *bytes = (volatile uint8_t *)code;
    function f = (function)(uintptr_t)code;
    uint32_t sum = 0;
    words[0] = addi_a0(1);
    words[1] = RET;
    for (uint32_t k = 0; k < 2000; k++) {
        words[0] = addi_a0(k & 1023);
        sum = f(sum);
        halves[1] = (uint16_t)(addi_a0(k * 7 & 1023) >> 16);
        sum = f(sum);
        bytes[3] = (uint8_t)(k & 63);
        sum = sum * 3 + f(k);
    }
    write_number("stores", sum);
    // functions all over two pages
    for (int k = 0; k < 2048; k += 2) { words[k] = addi_a0((uint32_t)k & 1023); words[k + 1] = RET; }
    for (int k = 0; k < 2048; k += 2) sum = sum * 5 + ((function)(uintptr_t)(code + k))(sum);
    write_number("pages", sum);
    // the input, which begins with an instruction and a return, is read over the first function
    long n = read_bytes(code, 8);
    if (n == 8 && code[1] == RET) sum = f(sum);
    write_number("read", sum);
    return 0;
}
