// No output: reads everything, and forgets to write what it found.
#include "contest.h"

int main(void) {
    int32_t n;
    char word[32];
    read_int(&n);
    for (int32_t k = 0; k < n; k++) read_word(word, sizeof word);
    return 0;
}
