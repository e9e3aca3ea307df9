// Wrong answer: writes the two numbers, not their positions.
#include "contest.h"

static int32_t value[4000];

int main(void) {
    int32_t n, target;
    read_int(&n);
    read_int(&target);
    if (n > 100) n = 100;
    for (int k = 0; k < n; k++) read_int(&value[k]);
    for (int i = 0; i < n; i++)
        for (int j = 0; j < i; j++)
            if (value[i] + value[j] == target) {
                write_int(value[j]);
                write_char(' ');
                write_int(value[i]);
                write_char('\n');
                return 0;
            }
    write_text("none\n");
    return 0;
}
