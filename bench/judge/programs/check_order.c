// The validator of `order`: reads the output on 0, the input on 3 and the answer on 4.
#include "contest.h"

enum { TASKS = 600, RULES = 4000 };
static int32_t before[RULES], behind[RULES], place[TASKS];
static char word[16];

int main(void) {
    int32_t n, m;
    read_from(4);
    int has_order = read_word(word, sizeof word) && word[0] != 'c';
    read_from(3);
    if (!read_int(&n) || !read_int(&m) || n >= TASKS || m > RULES) return 1;
    for (int k = 0; k < m; k++)
        if (!read_int(&before[k]) || !read_int(&behind[k])) return 1;
    read_from(0);
    if (!has_order) {
        const char *c = "cycle", *w = word;
        read_word(word, sizeof word);
        while (*c && *c == *w) c++, w++;
        return *c || *w || read_word(word, sizeof word) ? 43 : 42;
    }
    for (int k = 1; k <= n; k++) {
        int32_t task;
        if (!read_int(&task) || task < 1 || task > n || place[task]) return 43;
        place[task] = k;
    }
    if (read_word(word, sizeof word)) return 43;
    for (int k = 0; k < m; k++)
        if (place[before[k]] >= place[behind[k]]) return 43;
    return 42;
}
