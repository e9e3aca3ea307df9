// Too much memory: keeps the whole table, in which a word of 500 letters touches 500 pages.
#include "contest.h"

static char first[1002], second[1002];
static int32_t table[1002][1002];

int main(void) {
    long m = read_word(first, sizeof first), n = read_word(second, sizeof second);
    for (long i = 0; i < m; i++)
        for (long j = 0; j < n; j++) {
            int32_t above = table[i][j + 1], left = table[i + 1][j];
            table[i + 1][j + 1] = first[i] == second[j] ? table[i][j] + 1 : left > above ? left : above;
        }
    write_int(table[m][n]);
    write_char('\n');
    return 0;
}
