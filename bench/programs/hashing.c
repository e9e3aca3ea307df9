// Hashing: FNV-1a of texts that are drawn, in an open table of 65,536 places.
#include "calls.h"

enum { PLACES = 1 << 16 };
static uint32_t keys[PLACES], counts[PLACES];

static uint32_t hash_of(const uint8_t *text, uint32_t length) {
    uint32_t hash = 2166136261u;
    for (uint32_t k = 0; k < length; k++) hash = (hash ^ text[k]) * 16777619u;
    return hash;
}

int main(void) {
    uint8_t text[16];
    uint32_t most = 0, sum = 0;
    for (int round = 0; round < 600000; round++) {
        uint32_t drawn = draw() % 40000, length = 0;
        for (uint32_t n = drawn; length < 8; n /= 7) text[length++] = (uint8_t)('a' + n % 7);
        uint32_t hash = hash_of(text, length), at = hash % PLACES;
        while (keys[at] && keys[at] != hash) at = (at + 1) % PLACES;
        keys[at] = hash;
        if (++counts[at] > most) most = counts[at];
        sum += at;
    }
    write_number("sum", sum);
    write_number("most", most);
    return 0;
}
