// Wrong answer: takes each letter of the first word where it finds it next in the second.
#include "contest.h"

static char first[1002], second[1002];

int main(void) {
    read_word(first, sizeof first);
    read_word(second, sizeof second);
    int32_t length = 0;
    const char *from = second;
    for (const char *a = first; *a; a++) {
        const char *b = from;
        while (*b && *b != *a) b++;
        if (*b) {
            length++;
            from = b + 1;
        }
    }
    write_int(length);
    write_char('\n');
    return 0;
}
