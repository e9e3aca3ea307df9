// A program to begin with: reads numbers to the end of the input and writes their sum.
#include "contest.h"

int main(void) {
    int64_t sum = 0, number;
    while (read_int64(&number)) sum += number;
    write_int64(sum);
    write_char('\n');
    return 0;
}
