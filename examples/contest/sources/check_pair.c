// The validator of `pair`: accepts any two positions with the right sum, or `none` where the judges found none either.
//
// The output is read on descriptor 0, the input on 3 and the judges' answer on 4; 42 accepts and 43 rejects. Any other
// end is a judging error, as where the output has a pair though the judges found none.
#include "contest.h"

static int32_t value[4000];
static char word[32];

static int is_none(void) { return word[0] == 'n' && word[1] == 'o' && word[2] == 'n' && word[3] == 'e' && !word[4]; }

int main(void) {
    int32_t n, target, i, j;
    read_from(4);
    int judges_found = read_int(&i) && read_int(&j);
    read_from(3);
    if (!read_int(&n) || !read_int(&target) || n < 2 || n > 4000) return 1;
    for (int k = 0; k < n; k++)
        if (!read_int(&value[k])) return 1;
    read_from(0);
    // A first word that is a number begins a pair; it is read again from a word, since nothing can be put back.
    if (!read_word(word, sizeof word)) return 43;
    if (is_none()) return judges_found || read_word(word, sizeof word) ? 43 : 42;
    i = 0;
    for (const char *c = word; *c; c++) {
        if (*c < '0' || *c > '9' || i > 9999) return 43;
        i = 10 * i + (*c - '0');
    }
    if (!read_int(&j) || read_word(word, sizeof word)) return 43;
    if (i < 1 || j <= i || j > n || value[i - 1] + value[j - 1] != target) return 43;
    return judges_found ? 42 : 1;
}
