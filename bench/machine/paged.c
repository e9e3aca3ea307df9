// Whole pages are decoded when control first comes to them, and one `switch` a step goes on by a pointer into the page;
// what is written to x0 goes to register 32.
#define LABEL uint8_t
#include "decoded.h"

#define DISPATCH goto again

static inline uint8_t label_of(int operation) { return (uint8_t)operation; }

static int run(struct machine *m) {
    uint32_t pc = m->pc, base, at, k, v;
    uint64_t cost = m->cost, limit = m->limit;
    struct code *code;
    struct step *ip, *end;
    int e;
enter: // to pc, in another page
    if (cost >= limit) { e = TIME; goto stop; }
    k = place(m, pc);
    if (k == UINT32_MAX) { e = MEMORY; goto stop; }
    base = pc & ~4095u;
    code = code_of(m, k);
    ip = &code->steps[(pc & 4095) >> 2];
    end = code->steps + 1024;
    DISPATCH;
again: switch (ip->label) {
case ILLEGAL: e = TRAP_ILLEGAL; goto out;
#define X(operation, effect) case operation: effect;
#include "operations.h"
#undef X
case ECALL:
    m->cost = cost;
    e = call(m);
    cost = m->cost;
    if (e >= 0) goto out;
    ip++;
    if (ip == end) goto next_page;
    GO;
case EBREAK: e = TRAP_BREAK; goto out;
}
next_page:
    pc = base + 4096;
    goto enter;
out:
    pc = PC;
stop:
    m->pc = pc;
    m->cost = cost;
    return e;
}
