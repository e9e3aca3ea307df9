// Too slow: asks again and again for what it has found before.
#include "contest.h"

static char first[1002], second[1002];

static int32_t common(const char *a, const char *b) {
    if (!*a || !*b) return 0;
    if (*a == *b) return common(a + 1, b + 1) + 1;
    int32_t without = common(a + 1, b), other = common(a, b + 1);
    return without > other ? without : other;
}

int main(void) {
    read_word(first, sizeof first);
    read_word(second, sizeof second);
    write_int(common(first, second));
    write_char('\n');
    return 0;
}
