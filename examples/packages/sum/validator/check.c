// Accepts any two positive whole numbers with the sum that the input asks for.
//
// The output is read on descriptor 0, the input on 3, the answer on 4 and the flags on 5; 42 accepts and 43 rejects.
#include "../../../../bench/programs/calls.h"

static char bytes[4096];

static long read_all(int descriptor) {
    long length = 0;
    for (long n; (n = call3(63, descriptor, (long)(bytes + length), (long)sizeof bytes - 1 - length)) > 0;) length += n;
    bytes[length] = ' ';
    return length;
}

static int is_space(char c) { return c == ' ' || (c >= '\t' && c <= '\r'); }

// Reads words of at most 9 digits, and says how many there are, or -1 where a word is no such number.
static int read_numbers(int descriptor, uint32_t *numbers, int most) {
    long length = read_all(descriptor);
    int count = 0;
    for (long k = 0; k < length;) {
        if (is_space(bytes[k])) {
            k++;
            continue;
        }
        uint32_t number = 0;
        int digits = 0;
        for (; k < length && !is_space(bytes[k]); k++) {
            if (bytes[k] < '0' || bytes[k] > '9' || ++digits > 9) return -1;
            number = 10 * number + (uint32_t)(bytes[k] - '0');
        }
        if (count == most) return -1;
        numbers[count++] = number;
    }
    return count;
}

int main(void) {
    uint32_t wanted[1], given[2];
    if (read_numbers(3, wanted, 1) != 1) return 1;
    if (read_numbers(0, given, 2) != 2) return 43;
    return given[0] > 0 && given[1] > 0 && given[0] + given[1] == wanted[0] ? 42 : 43;
}
