// Copies the input in pieces of odd length, with capital letters, and counts its lines.
#include "calls.h"

static char piece[777];

int main(void) {
    uint32_t lines = 0;
    for (long n; (n = read_bytes(piece, sizeof piece)) > 0;) {
        for (long k = 0; k < n; k++) {
            if (piece[k] >= 'a' && piece[k] <= 'z') piece[k] -= 32;
            lines += piece[k] == '\n';
        }
        write_bytes(piece, (size_t)n);
    }
    write_number("lines", lines);
    return lines % 256 == 0 ? 3 : 0;
}
