// What the programs of this folder share: `solve` reads a test, writes its answer and gives a number that differs from
// test to test. FAULT says what goes wrong then; RIGHT is nothing, and WRONG is for the program itself. TRAP, STATUS and
// SILENT go wrong only where that number is odd, so on some of the tests.
#include "contest.h"

enum { RIGHT, WRONG, TRAP, STATUS, SILENT, LOOP, FLOOD, GREEDY };
#ifndef FAULT
#define FAULT RIGHT
#endif

static uint32_t solve(void);

int main(void) {
    uint32_t odd = solve() & 1;
    static char zeros[4096];
    if (FAULT == TRAP && odd) __builtin_trap();
    if (FAULT == STATUS && odd) return 3;
    if (FAULT == LOOP)
        for (;;) __asm__ volatile("");
    if (FAULT == FLOOD)
        for (;;) write(1, zeros, sizeof zeros);
    if (FAULT == GREEDY)
        for (volatile char *page = (char *)0x1000000;; page += 4096) *page = 1;
    if (FAULT == SILENT && odd) {
        // Ends without the output that is in the buffer.
        register long status __asm__("a0") = 0, number __asm__("a7") = 93;
        __asm__ volatile("ecall" : : "r"(status), "r"(number));
    }
    return 0;
}
