// The product of two numbers of hundreds of digits, with signs.
#include "faults.h"

static char a[502], b[502];
static uint32_t digit[1010];

static uint32_t solve(void) {
    long m = read_word(a, sizeof a), n = read_word(b, sizeof b), low_a = a[0] == '-', low_b = b[0] == '-';
    for (long i = m - 1; i >= low_a; i--)
        for (long j = n - 1; j >= low_b; j--) digit[m - 1 - i + n - 1 - j] += (uint32_t)((a[i] - '0') * (b[j] - '0'));
    uint32_t carry = 0;
    long length = m + n + 1;
    for (long k = 0; k < length; k++) {
        carry += digit[k];
        digit[k] = carry % 10;
        carry /= 10;
    }
    while (length > 1 && !digit[length - 1]) length--;
    int is_zero = length == 1 && !digit[0];
    if (low_a != low_b && (FAULT == WRONG || !is_zero)) write_char('-');
    for (long k = length - 1; k >= 0; k--) write_char((char)('0' + digit[k]));
    write_char('\n');
    return digit[0] + digit[1] + (uint32_t)length;
}
