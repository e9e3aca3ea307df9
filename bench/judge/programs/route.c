// The length of the shortest way through a network of two-way roads, with a heap.
#include "faults.h"

enum { PLACES = 400, ROADS = 4000 };
static int32_t first[PLACES], next[ROADS], to[ROADS];
static int64_t length[ROADS], best[PLACES], key[ROADS + 1];
static int32_t place[ROADS + 1], used, roads;

static void add(int32_t from, int32_t target, int64_t size) {
    to[++roads] = target;
    length[roads] = size;
    next[roads] = first[from];
    first[from] = roads;
}

static void push(int64_t k, int32_t p) {
    int at = ++used;
    for (; at > 1 && key[at / 2] > k; at /= 2) {
        key[at] = key[at / 2];
        place[at] = place[at / 2];
    }
    key[at] = k;
    place[at] = p;
}

static void pop(void) {
    int64_t k = key[used];
    int32_t p = place[used--];
    int at = 1;
    for (int child; (child = 2 * at) <= used; at = child) {
        if (child < used && key[child + 1] < key[child]) child++;
        if (key[child] >= k) break;
        key[at] = key[child];
        place[at] = place[child];
    }
    key[at] = k;
    place[at] = p;
}

static uint32_t solve(void) {
    int32_t n, m, a, b;
    int64_t size;
    read_int(&n);
    read_int(&m);
    while (m--) {
        read_int(&a);
        read_int(&b);
        read_int64(&size);
        add(a, b, size);
        if (FAULT != WRONG) add(b, a, size);
    }
    for (int k = 0; k <= n; k++) best[k] = -1;
    for (push(0, 1); used;) {
        int64_t here = key[1];
        int32_t at = place[1];
        pop();
        if (best[at] >= 0) continue;
        best[at] = here;
        for (int road = first[at]; road; road = next[road])
            if (best[to[road]] < 0) push(here + length[road], to[road]);
    }
    write_int64(best[n]);
    write_char('\n');
    return (uint32_t)best[n];
}
