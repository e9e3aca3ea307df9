// Code in 5,000 pages: one function that goes from page to page. Between its runs a word of each page is stored anew, so
// each page is code and data in turn.
#include "calls.h"

typedef uint32_t (*function)(uint32_t);
enum { PAGES = 5000, WORDS = 1024, RET = 0x00008067 };
static uint32_t code[PAGES * WORDS];

static uint32_t addi_a0(uint32_t n) { return 0x00050513 | n << 20; } // addi a0, a0, n

// jal x0, to a place n bytes on, for n below 2^20
static uint32_t jump(uint32_t n) {
    return 0x0000006F | (n >> 1 & 1023) << 21 | (n >> 11 & 1) << 20 | (n >> 12 & 255) << 12;
}

int main(void) {
    uint32_t sum = 0;
    for (uint32_t p = 0; p < PAGES; p++) {
        code[p * WORDS] = addi_a0(p & 1023);
        code[p * WORDS + 1] = p + 1 < PAGES ? jump(4 * WORDS - 4) : RET;
    }
    for (uint32_t k = 1; k < 4; k++) {
        sum = ((function)(uintptr_t)code)(sum);
        write_number("sum", sum);
        for (uint32_t p = 0; p < PAGES; p++) code[p * WORDS] = addi_a0(p * k & 1023);
    }
    return 0;
}
