// A list of operations on a number, as code that the program writes and changes while it runs. `run X` executes it, and
// `set I OPERATION C` changes its I-th operation.
#include "faults.h"

enum { MOST = 3000, RET = 0x00008067 };
static uint32_t code[MOST + 1];

static int is(const char *a, const char *b) {
    for (; *a && *a == *b; a++) b++;
    return *a == *b;
}

static uint32_t instruction(const char *word, int32_t constant) {
    uint32_t field = (uint32_t)constant << 20;
    if (is(word, "add")) return field | 0x00050513;                // addi a0, a0, constant
    if (is(word, "xor")) return field | 0x00054513;                // xori a0, a0, constant
    if (is(word, "shl")) return field | 0x00051513;                // slli a0, a0, constant
    return field | 0x00057513;                                     // andi a0, a0, constant
}

static uint32_t solve(void) {
    int32_t n, constant, at;
    uint32_t last = 0;
    char word[16];
    volatile uint32_t *write_to = code;
    read_int(&n);
    for (int k = 0; k < n; k++) {
        read_word(word, sizeof word);
        read_int(&constant);
        write_to[k] = instruction(word, constant);
    }
    write_to[n] = RET;
    while (read_word(word, sizeof word)) {
        if (is(word, "run")) {
            read_int(&constant);
            last = ((uint32_t (*)(uint32_t))(uintptr_t)code)((uint32_t)constant);
            write_int((int32_t)last);
            write_char('\n');
        } else {
            read_int(&at);
            read_word(word, sizeof word);
            read_int(&constant);
            if (FAULT != WRONG || at % 2) write_to[at - 1] = instruction(word, constant);
        }
    }
    return last;
}
