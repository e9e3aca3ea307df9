// Run error: where there is no pair it says so, and then ends with status 1.
#include "contest.h"

static int32_t value[4000];
static uint8_t seen[200001];

int main(void) {
    int32_t n, target;
    read_int(&n);
    read_int(&target);
    for (int k = 0; k < n; k++) read_int(&value[k]);
    for (int k = 0; k < n; k++) {
        int32_t other = target - value[k];
        if (other >= 0 && other <= 200000 && seen[other])
            for (int j = 0; j < k; j++)
                if (value[j] == other) {
                    write_int(j + 1);
                    write_char(' ');
                    write_int(k + 1);
                    write_char('\n');
                    return 0;
                }
        seen[value[k]] = 1;
    }
    write_text("none\n");
    return 1;
}
