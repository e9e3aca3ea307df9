// Memory: words are read, changed and written back, in order, in strides and at random, over 4 MiB.
#include "calls.h"

enum { N = 1 << 20 };
static uint32_t words[N];

int main(void) {
    for (uint32_t k = 0; k < N; k++) words[k] = k * 2654435761u;
    uint32_t sum = 0;
    for (int round = 0; round < 12; round++) {
        for (uint32_t k = 0; k + 1 < N; k++) words[k] += words[k + 1] ^ sum;
        for (uint32_t start = 0; start < 16; start++)
            for (uint32_t k = start; k < N; k += 16) sum += words[k];
        uint32_t at = sum % N;
        for (uint32_t k = 0; k < N / 2; k++) { at = (at * 1664525u + words[at] + 1013904223u) % N; words[at] ^= sum; sum += at; }
        uint8_t *bytes = (uint8_t *)words;
        for (uint32_t k = 0; k < N; k++) sum += bytes[k * 4 + (k & 3)];
    }
    write_number("sum", sum);
    return 0;
}
