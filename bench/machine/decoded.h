// Pages that are decoded whole when control first comes to them, for interpreters that go on by a pointer into the decoded
// page. Such an interpreter says before it includes this what a step keeps of its operation (LABEL) and how that is got
// (label_of), and after that how it goes to the step at `ip` (DISPATCH). A decoded page is its 1,024 steps. Where the next
// step is that behind this one, `ip` is compared with the `end` of the page, and the interpreter goes to its label
// `next_page` there.
#include "machine.h"

struct step { LABEL label; uint8_t rd, rs1, rs2; int32_t imm; };
struct code { struct step steps[1024]; };

static struct code **codes; // for the place of each page, its code or NULL

static inline LABEL label_of(int operation);

static void prepare(struct machine *m) { (void)m; }
static void on_new_page(struct machine *m) {
    codes = realloc(codes, sizeof *codes * m->page_room);
    codes[m->page_count - 1] = NULL;
}

static inline struct step step_of(uint32_t word) {
    struct instr i = decode(word);
    return (struct step){ .label = label_of(i.op), .rd = i.rd ? i.rd : 32, .rs1 = i.rs1, .rs2 = i.rs2, .imm = i.imm };
}

static struct code *code_of(struct machine *m, uint32_t k) {
    if (!codes[k]) {
        codes[k] = malloc(sizeof **codes);
        for (int n = 0; n < 1024; n++) {
            uint32_t word;
            memcpy(&word, m->pages[k].bytes + 4 * n, 4);
            codes[k]->steps[n] = step_of(word);
        }
    }
    return codes[k];
}

static __attribute__((noinline)) void decode_again(struct machine *m, uint32_t k, uint32_t at) {
    uint32_t word;
    memcpy(&word, m->pages[k].bytes + (at & 4092), 4);
    codes[k]->steps[(at & 4095) >> 2] = step_of(word);
}

static void stored(struct machine *m, uint32_t at, uint32_t n) {
    for (uint64_t a = at & ~3u; a < (uint64_t)at + n; a += 4) {
        uint32_t k = m->index[a >> 12] - 1;
        if (codes[k]) decode_again(m, k, (uint32_t)a);
    }
}

#define A m->reg[ip->rs1]
#define B m->reg[ip->rs2]
#define IMM ((uint32_t)ip->imm)
#define PC (base + 4 * (uint32_t)(ip - code->steps))
#define GO if (cost >= limit) { e = TIME; goto out; } DISPATCH
#define NEXT do { ip++; cost++; if (ip == end) goto next_page; GO; } while (0)
#define GIVE(value) do { m->reg[ip->rd] = (value); NEXT; } while (0)
#define TO(to) do { pc = (to); if (pc & 3) { e = TRAP_JUMP; goto out; } } while (0)
#define HERE ((pc ^ base) < 4096)
#define ENTER do { cost++; if (HERE) { ip = &code->steps[(pc & 4095) >> 2]; GO; } goto enter; } while (0)
#define JUMP(to) do { at = PC + 4; TO(to); m->reg[ip->rd] = at; ENTER; } while (0)
#define BRANCH(condition) do { if (condition) { TO(PC + IMM); ENTER; } NEXT; } while (0)
#define AT(width) \
    at = A + IMM; \
    if (at & (width - 1)) { e = TRAP_MISALIGNED; goto out; } \
    k = place(m, at); \
    if (k == UINT32_MAX) { e = MEMORY; goto out; }
#define LOAD(width, as) do { AT(width) v = 0; memcpy(&v, m->pages[k].bytes + (at & 4095), width); GIVE(as); } while (0)
#define STORE(width) do { AT(width) v = B; memcpy(m->pages[k].bytes + (at & 4095), &v, width); \
    if (codes[k]) { decode_again(m, k, at); } NEXT; } while (0)
