// Every operation of the extension M, and the shifts and comparisons, over pairs of numbers at the edges.
#include "calls.h"

#define OPERATION(op) { uint32_t r; __asm__ volatile(#op " %0, %1, %2" : "=r"(r) : "r"(a), "r"(b)); write_hex(r); }

static const uint32_t EDGES[] = { 0, 1, 2, 3, 7, 31, 32, 33, 0x7ffffffe, 0x7fffffff, 0x80000000, 0x80000001, 0xaaaaaaaa,
                                  0xfffffff9, 0xfffffffe, 0xffffffff };

static void line(uint32_t a, uint32_t b) {
    OPERATION(div) OPERATION(divu) OPERATION(rem) OPERATION(remu)
    OPERATION(mul) OPERATION(mulh) OPERATION(mulhsu) OPERATION(mulhu)
    OPERATION(sll) OPERATION(srl) OPERATION(sra) OPERATION(slt) OPERATION(sltu) OPERATION(sub)
    write_text("\n");
}

int main(void) {
    for (unsigned i = 0; i < sizeof EDGES / sizeof *EDGES; i++)
        for (unsigned j = 0; j < sizeof EDGES / sizeof *EDGES; j++) line(EDGES[i], EDGES[j]);
    for (int k = 0; k < 500; k++) { uint32_t a = draw(), b = draw(); line(a, k % 3 ? b : b >> (draw() & 31)); }
    return 0;
}
