// Right: sums tenths, and divides with nine places.
#include "contest.h"

static int64_t read_tenths(void) {
    char word[32];
    int64_t tenths = 0;
    read_word(word, sizeof word);
    for (char *c = word; *c; c++)
        if (*c >= '0' && *c <= '9') tenths = 10 * tenths + (*c - '0');
    return word[0] == '-' ? -tenths : tenths;
}

int main(void) {
    int32_t n;
    int64_t sum = 0;
    read_int(&n);
    for (int32_t k = 0; k < n; k++) sum += read_tenths();
    if (sum < 0) {
        write_char('-');
        sum = -sum;
    }
    int64_t most = 10 * (int64_t)n, rest = sum % most;
    write_int64(sum / most);
    write_char('.');
    for (int place = 0; place < 9; place++, rest = rest * 10 % most) write_char((char)('0' + rest * 10 / most));
    write_char('\n');
    return 0;
}
