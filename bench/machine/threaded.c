// Whole pages are decoded when control first comes to them, and each instruction jumps to the next by computed goto.
#define LABEL const void *
#include "decoded.h"

#define DISPATCH goto *ip->label

static const void *const *labels; // of the operations

static inline const void *label_of(int operation) { return labels[operation]; }

static int run(struct machine *m) {
#define X(operation, effect) [operation] = &&operation##_,
    static const void *const table[OPS] = { [ILLEGAL] = &&illegal, [ECALL] = &&ecall, [EBREAK] = &&ebreak,
#include "operations.h"
    };
#undef X
    labels = table;
    uint32_t pc = m->pc, base, at, k, v;
    uint64_t cost = m->cost, limit = m->limit;
    struct code *code;
    struct step *ip, *end;
    int e;
enter: // to pc, in another page
    if (cost >= limit) { e = TIME; goto stop; }
    k = place(m, pc);
    if (k == UINT32_MAX) { e = MEMORY; goto stop; }
    base = pc & ~4095u;
    code = code_of(m, k);
    ip = &code->steps[(pc & 4095) >> 2];
    end = code->steps + 1024;
    DISPATCH;
next_page:
    pc = base + 4096;
    goto enter;
illegal: e = TRAP_ILLEGAL; goto out;
#define X(operation, effect) operation##_: effect;
#include "operations.h"
#undef X
ecall:
    m->cost = cost;
    e = call(m);
    cost = m->cost;
    if (e >= 0) goto out;
    ip++;
    if (ip == end) goto next_page;
    GO;
ebreak: e = TRAP_BREAK; goto out;
out:
    pc = PC;
stop:
    m->pc = pc;
    m->cost = cost;
    return e;
}
