// How many pairs of numbers stand in the wrong order, counted by merging.
#include "faults.h"

static int32_t value[4000], spare[4000];

static int64_t sort(int low, int high) {
    if (high - low < 2) return 0;
    int middle = (low + high) / 2;
    int64_t count = sort(low, middle) + sort(middle, high);
    for (int i = low, j = middle, k = low; k < high; k++) {
        int left = j == high || (i < middle && (FAULT == WRONG ? value[i] < value[j] : value[i] <= value[j]));
        if (!left) count += middle - i;
        spare[k] = left ? value[i++] : value[j++];
    }
    memcpy(value + low, spare + low, (size_t)(high - low) * sizeof *value);
    return count;
}

static uint32_t solve(void) {
    int32_t n;
    read_int(&n);
    for (int k = 0; k < n; k++) read_int(&value[k]);
    int64_t count = sort(0, n);
    write_int64(count);
    write_char('\n');
    return (uint32_t)count;
}
