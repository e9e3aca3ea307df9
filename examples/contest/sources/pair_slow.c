// Too slow: looks at every two numbers, from the last ones on.
#include "contest.h"

static int32_t value[4000];

int main(void) {
    int32_t n, target;
    read_int(&n);
    read_int(&target);
    for (int k = 0; k < n; k++) read_int(&value[k]);
    for (int i = n - 1; i >= 0; i--)
        for (int j = n - 1; j > i; j--)
            if (value[i] + value[j] == target) {
                write_int(i + 1);
                write_char(' ');
                write_int(j + 1);
                write_char('\n');
                return 0;
            }
    write_text("none\n");
    return 0;
}
