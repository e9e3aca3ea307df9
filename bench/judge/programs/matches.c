// Where a text has a word, also on one another, by the word's borders.
#include "faults.h"

static char word[202], text[20002];
static int border[203];

static uint32_t solve(void) {
    long m = read_word(word, sizeof word), n = read_word(text, sizeof text);
    uint32_t count = 0;
    border[0] = -1;
    for (int k = 0, at = -1; k < m;) {
        while (at >= 0 && word[k] != word[at]) at = border[at];
        border[++k] = ++at;
    }
    for (int k = 0, at = 0; k < n; k++) {
        while (at >= 0 && (at == m || text[k] != word[at])) at = border[at];
        if (++at == m) {
            count++;
            write_int(k - (int32_t)m + 2);
            write_char('\n');
            if (FAULT == WRONG) at = 0;
        }
    }
    write_text("matches ");
    write_int((int32_t)count);
    write_char('\n');
    return count;
}
