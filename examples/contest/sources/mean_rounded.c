// Wrong answer: writes the mean rounded to one place.
#include "contest.h"

int main(void) {
    int32_t n;
    int64_t sum = 0;
    char word[32];
    read_int(&n);
    for (int32_t k = 0; k < n; k++) {
        read_word(word, sizeof word);
        int64_t tenths = 0;
        for (char *c = word; *c; c++)
            if (*c >= '0' && *c <= '9') tenths = 10 * tenths + (*c - '0');
        sum += word[0] == '-' ? -tenths : tenths;
    }
    int64_t size = sum < 0 ? -sum : sum, rounded = (2 * size + n) / (2 * n);
    if (sum < 0 && rounded > 0) write_char('-');
    write_int64(rounded / 10);
    write_char('.');
    write_int64(rounded % 10);
    write_char('\n');
    return 0;
}
