// Output limit: writes without end.
#include "contest.h"

int main(void) {
    static char zeros[4096];
    memset(zeros, '0', sizeof zeros);
    for (;;) write(1, zeros, sizeof zeros);
}
