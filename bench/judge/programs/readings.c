// The least and the greatest of many readings of a gauge, their sum, and the longest run that does not fall.
#include "faults.h"

// Keeps what is written off the pages of the code, also in a raw image: qemu translates a page anew once it is written.
__attribute__((used)) static const uint8_t room[8192] = {1};

static uint32_t solve(void) {
    int32_t n, reading, last = 0, least = INT32_MAX, greatest = INT32_MIN, run = 0, longest = 0;
    int64_t sum = 0;
    read_int(&n);
    for (int k = 0; k < n && read_int(&reading); k++) {
        if (reading < least) least = reading;
        if (reading > greatest) greatest = reading;
        sum += reading;
        run = k > 0 && (FAULT == WRONG ? reading > last : reading >= last) ? run + 1 : 1;
        if (run > longest) longest = run;
        last = reading;
    }
    write_int(least);
    write_char(' ');
    write_int(greatest);
    write_char(' ');
    write_int64(sum);
    write_char(' ');
    write_int(longest);
    write_char('\n');
    return (uint32_t)sum;
}
