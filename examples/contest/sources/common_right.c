// Right: keeps one row of the table.
#include "contest.h"

static char first[2002], second[2002];
static int32_t row[2002];

int main(void) {
    long m = read_word(first, sizeof first), n = read_word(second, sizeof second);
    for (long i = 0; i < m; i++) {
        int32_t corner = 0;
        for (long j = 0; j < n; j++) {
            int32_t above = row[j + 1];
            row[j + 1] = first[i] == second[j] ? corner + 1 : row[j] > above ? row[j] : above;
            corner = above;
        }
    }
    write_int(row[n]);
    write_char('\n');
    return 0;
}
