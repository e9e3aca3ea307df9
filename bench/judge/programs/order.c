// An order of tasks in which each comes behind those that it waits for, or the word `cycle`. Any such order will do.
#include "faults.h"

enum { TASKS = 600, RULES = 4000 };
static int32_t first[TASKS], next[RULES], to[RULES], waits[TASKS], ready[TASKS];

static uint32_t solve(void) {
    int32_t n, m, before, behind;
    read_int(&n);
    read_int(&m);
    for (int k = 1; k <= m; k++) {
        read_int(&before);
        read_int(&behind);
        to[k] = behind;
        next[k] = first[before];
        first[before] = k;
        waits[behind]++;
    }
    int count = 0, done = 0;
    for (int k = 1; k <= n; k++)
        if (!waits[k]) ready[count++] = k;
    while (done < count) {
        int at = ready[done++];
        for (int k = first[at]; k; k = next[k])
            if (--waits[to[k]] == 0) ready[count++] = to[k];
    }
    if (count < n) {
        write_text("cycle\n");
        return 0;
    }
    for (int k = 0; k < n; k++) {
        write_int(FAULT == WRONG ? k + 1 : ready[k]);
        write_char(k + 1 < n ? ' ' : '\n');
    }
    return (uint32_t)ready[n - 1];
}
