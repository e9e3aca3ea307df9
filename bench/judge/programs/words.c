// The words of a text with their counts, the most frequent first, and equally frequent ones in the order of the alphabet.
#include "faults.h"

enum { PLACES = 1024 };
static char text[PLACES][24];
static int32_t count[PLACES], at[PLACES];

static int compare(const char *a, const char *b) {
    for (; *a && *a == *b; a++) b++;
    return *a - *b;
}

static int is_before(int a, int b) {
    if (count[a] != count[b]) return count[a] > count[b];
    return FAULT == WRONG ? a < b : compare(text[a], text[b]) < 0;
}

static uint32_t solve(void) {
    char word[24];
    int32_t n = 0;
    while (read_word(word, sizeof word)) {
        uint32_t hash = 5381;
        for (char *c = word; *c; c++) hash = hash * 33 + (uint8_t)*c;
        uint32_t place = hash % PLACES;
        while (count[place] && compare(text[place], word)) place = (place + 1) % PLACES;
        if (!count[place]) {
            memcpy(text[place], word, sizeof word);
            at[n++] = (int32_t)place;
        }
        count[place]++;
    }
    for (int k = 1; k < n; k++) {
        int32_t here = at[k];
        int j = k;
        for (; j > 0 && is_before(here, at[j - 1]); j--) at[j] = at[j - 1];
        at[j] = here;
    }
    for (int k = 0; k < n; k++) {
        write_text(text[at[k]]);
        write_char(' ');
        write_int(count[at[k]]);
        write_char('\n');
    }
    return (uint32_t)n;
}
