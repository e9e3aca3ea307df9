// Right: sorts the positions by value, and walks in from both ends.
#include "contest.h"

enum { MOST = 4000 };
static int32_t value[MOST], at[MOST], spare[MOST];

static void sort(int low, int high) {
    if (high - low < 2) return;
    int middle = low + (high - low) / 2;
    sort(low, middle);
    sort(middle, high);
    for (int i = low, j = middle, k = low; k < high; k++)
        spare[k] = j == high || (i < middle && value[at[i]] <= value[at[j]]) ? at[i++] : at[j++];
    memcpy(at + low, spare + low, (size_t)(high - low) * sizeof *at);
}

int main(void) {
    int32_t n, target;
    read_int(&n);
    read_int(&target);
    for (int k = 0; k < n; k++) {
        read_int(&value[k]);
        at[k] = k;
    }
    sort(0, n);
    for (int i = 0, j = n - 1; i < j;) {
        int32_t sum = value[at[i]] + value[at[j]];
        if (sum == target) {
            write_int(at[i] < at[j] ? at[i] + 1 : at[j] + 1);
            write_char(' ');
            write_int(at[i] < at[j] ? at[j] + 1 : at[i] + 1);
            write_char('\n');
            return 0;
        }
        if (sum < target) i++;
        else j--;
    }
    write_text("none\n");
    return 0;
}
