// A direct-mapped cache of decoded instructions by pc, and one `switch` a step: the shape of the Rattle machine.
#include "machine.h"

enum { ENTRIES = 4096, UNUSED = 1 };
static struct entry { uint32_t at; struct instr instr; } cache[ENTRIES];

static void prepare(struct machine *m) { (void)m; for (int k = 0; k < ENTRIES; k++) cache[k].at = UNUSED; }
static void on_new_page(struct machine *m) { (void)m; }

static inline void forget(uint32_t at) {
    struct entry *e = &cache[(at >> 2) % ENTRIES];
    if (e->at == (at & ~3u)) e->at = UNUSED;
}

static void stored(struct machine *m, uint32_t at, uint32_t n) {
    (void)m;
    if (n > 4 * ENTRIES) { prepare(m); return; }
    for (uint64_t a = at & ~3u; a < (uint64_t)at + n; a += 4) forget((uint32_t)a);
}

// Each gives -1, or the ending.
static inline int load(struct machine *m, uint32_t at, uint32_t width, uint32_t *value) {
    if (at & (width - 1)) return TRAP_MISALIGNED;
    uint32_t k = place(m, at);
    if (k == UINT32_MAX) return MEMORY;
    *value = 0;
    memcpy(value, m->pages[k].bytes + (at & 4095), width);
    return -1;
}

static inline int store(struct machine *m, uint32_t at, uint32_t width, uint32_t value) {
    if (at & (width - 1)) return TRAP_MISALIGNED;
    uint32_t k = place(m, at);
    if (k == UINT32_MAX) return MEMORY;
    memcpy(m->pages[k].bytes + (at & 4095), &value, width);
    forget(at);
    return -1;
}

static __attribute__((noinline)) int fetch_anew(struct machine *m, uint32_t pc, struct instr *i) {
    uint32_t word;
    int e = load(m, pc, 4, &word);
    if (e >= 0) return e;
    *i = decode(word);
    if (i->op == ILLEGAL) return TRAP_ILLEGAL;
    cache[(pc >> 2) % ENTRIES] = (struct entry){ pc, *i };
    return -1;
}

#define A m->reg[i.rs1]
#define B m->reg[i.rs2]
#define IMM ((uint32_t)i.imm)
#define PC pc
#define NEXT break
#define GIVE(value) { m->reg[i.rd] = (value); m->reg[0] = 0; break; }
#define TO(to) pc_after = (to); if (pc_after & 3) { e = TRAP_JUMP; goto out; }
#define JUMP(to) { TO(to) m->reg[i.rd] = pc + 4; m->reg[0] = 0; break; }
#define BRANCH(condition) { if (condition) { TO(pc + IMM) } break; }
#define LOAD(width, as) { if ((e = load(m, A + IMM, width, &v)) >= 0) goto out; GIVE(as) }
#define STORE(width) { if ((e = store(m, A + IMM, width, B)) >= 0) goto out; break; }

static int run(struct machine *m) {
    uint32_t pc = m->pc, v;
    uint64_t cost = m->cost, limit = m->limit;
    int e;
    for (;; cost++) {
        if (cost >= limit) { e = TIME; goto out; }
        struct instr i;
        struct entry *kept = &cache[(pc >> 2) % ENTRIES];
        if (kept->at == pc) i = kept->instr;
        else if ((e = fetch_anew(m, pc, &i)) >= 0) goto out;
        uint32_t pc_after = pc + 4;
        switch (i.op) {
#define X(operation, effect) case operation: effect;
#include "operations.h"
#undef X
        case ECALL:
            m->cost = cost;
            e = call(m);
            cost = m->cost;
            if (e >= 0) goto out;
            cost--;
            break;
        case EBREAK: e = TRAP_BREAK; goto out;
        }
        pc = pc_after;
    }
out:
    m->pc = pc;
    m->cost = cost;
    return e;
}
