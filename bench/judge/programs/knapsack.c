// The greatest value of things that fit into a bag, each taken once at most.
#include "faults.h"

static int32_t best[5001];

static uint32_t solve(void) {
    int32_t n, room, weight, value;
    read_int(&n);
    read_int(&room);
    while (n--) {
        read_int(&weight);
        read_int(&value);
        if (FAULT == WRONG) {
            for (int w = weight; w <= room; w++)
                if (best[w - weight] + value > best[w]) best[w] = best[w - weight] + value;
        } else {
            for (int w = room; w >= weight; w--)
                if (best[w - weight] + value > best[w]) best[w] = best[w - weight] + value;
        }
    }
    write_int(best[room]);
    write_char('\n');
    return (uint32_t)best[room];
}
