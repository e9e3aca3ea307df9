// Matrices: products of square matrices of 120 rows, modulo a prime.
#include "calls.h"

enum { N = 120 };
static uint32_t a[N][N], b[N][N], c[N][N];

static void multiply(void) {
    for (int i = 0; i < N; i++)
        for (int j = 0; j < N; j++) {
            uint32_t sum = 0;
            for (int k = 0; k < N; k++) sum += a[i][k] * b[k][j];
            c[i][j] = sum % 65521;
        }
}

int main(void) {
    for (int i = 0; i < N; i++)
        for (int j = 0; j < N; j++) a[i][j] = draw() % 251, b[i][j] = draw() % 251;
    uint32_t sum = 0;
    for (int round = 0; round < 10; round++) {
        multiply();
        for (int i = 0; i < N; i++)
            for (int j = 0; j < N; j++) a[i][j] = c[i][j] % 251, sum = sum * 31 + c[i][j];
    }
    write_number("sum", sum);
    return 0;
}
