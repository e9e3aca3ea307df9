// Run error: wrong on the sample already, and on more than 100 numbers it executes `ebreak`. A run error
// has the greater priority, so it decides, though it comes on a later test.
#include "contest.h"

int main(void) {
    int32_t n;
    read_int(&n);
    if (n > 100) __builtin_trap();
    write_text("0.0\n");
    return 0;
}
