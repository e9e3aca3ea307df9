// How many letters must be put in, taken out or changed to make one word of another.
#include "faults.h"

static char a[602], b[602];
static int32_t row[602];

static uint32_t solve(void) {
    long m = read_word(a, sizeof a), n = read_word(b, sizeof b);
    for (long j = 0; j <= n; j++) row[j] = (int32_t)j;
    for (long i = 0; i < m; i++) {
        int32_t corner = row[0];
        row[0] = (int32_t)i + 1;
        for (long j = 0; j < n; j++) {
            int32_t above = row[j + 1], least = corner + (a[i] == b[j] ? 0 : FAULT == WRONG ? 2 : 1);
            if (above + 1 < least) least = above + 1;
            if (row[j] + 1 < least) least = row[j] + 1;
            row[j + 1] = least;
            corner = above;
        }
    }
    write_int(row[n]);
    write_char('\n');
    return (uint32_t)row[n];
}
