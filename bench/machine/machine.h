// A metered RV32IM machine in plain C, as the Rattle machine defines it: memory in pages of 4,096 bytes that are
// touched at the first access, a limit of pages, of instructions and of output, and the calls exit, read and write.
// The two interpreters beside this file share it and differ in how they fetch and dispatch.
#include <stdint.h>
#include <stdio.h>
#include <stdlib.h>
#include <string.h>
#include <time.h>

enum op { ILLEGAL, LUI, AUIPC, JAL, JALR, BEQ, BNE, BLT, BGE, BLTU, BGEU, LB, LH, LW, LBU, LHU, SB, SH, SW, ADDI, SLTI,
          SLTIU, XORI, ORI, ANDI, SLLI, SRLI, SRAI, ADD, SUB, SLL, SLT, SLTU, XOR, SRL, SRA, OR, AND, MUL, MULH, MULHSU,
          MULHU, DIV, DIVU, REM, REMU, FENCE, ECALL, EBREAK, OPS };

enum ending { EXIT, TIME, MEMORY, OUTPUT, TRAP_ILLEGAL, TRAP_JUMP, TRAP_MISALIGNED, TRAP_BREAK, TRAP_CALL, TRAP_RANGE };

static const char *const ENDINGS[] = { "exit", "time", "memory", "output", "trap=illegal", "trap=jump",
                                       "trap=misaligned", "trap=break", "trap=call", "trap=range" };

struct instr { uint8_t op, rd, rs1, rs2; int32_t imm; };
struct page { uint8_t bytes[4096]; };

struct machine {
    uint32_t reg[33]; // the last takes what is written to x0, where an interpreter wants it so
    uint32_t pc;
    uint64_t cost, limit;
    uint32_t page_count, page_limit, page_room;
    struct page *pages;
    uint32_t *index; // for each page number 1 + its place, or 0
    const uint8_t *input;
    size_t input_left;
    uint8_t *output;
    size_t output_length, output_room, output_limit;
};

static struct instr decode(uint32_t w) {
    struct instr i = { ILLEGAL, (w >> 7) & 31, (w >> 15) & 31, (w >> 20) & 31, 0 };
    uint32_t f3 = (w >> 12) & 7, f7 = w >> 25;
    int32_t s = (int32_t)w;
    static const uint8_t branch[8] = { BEQ, BNE, 0, 0, BLT, BGE, BLTU, BGEU }, load[8] = { LB, LH, LW, 0, LBU, LHU },
        store[8] = { SB, SH, SW }, base[8] = { ADD, SLL, SLT, SLTU, XOR, SRL, OR, AND },
        mul[8] = { MUL, MULH, MULHSU, MULHU, DIV, DIVU, REM, REMU }, imm[8] = { ADDI, 0, SLTI, SLTIU, XORI, 0, ORI, ANDI };
    switch (w & 127) {
    case 0x37: i.op = LUI; i.imm = s & ~0xfff; break;
    case 0x17: i.op = AUIPC; i.imm = s & ~0xfff; break;
    case 0x6f: i.op = JAL; i.imm = ((s >> 31) * (1 << 20)) | (w & 0xff000) | ((w >> 9) & 0x800) | ((w >> 20) & 0x7fe); break;
    case 0x67: if (f3 == 0) { i.op = JALR; i.imm = s >> 20; } break;
    case 0x63: i.op = branch[f3]; i.imm = ((s >> 31) * (1 << 12)) | ((w & 0x80) << 4) | ((w >> 20) & 0x7e0) | ((w >> 7) & 0x1e); break;
    case 0x03: i.op = load[f3]; i.imm = s >> 20; break;
    case 0x23: i.op = store[f3]; i.imm = ((s >> 25) * 32) | ((w >> 7) & 31); break;
    case 0x13:
        i.op = imm[f3]; i.imm = s >> 20;
        if (f3 == 1 && f7 == 0) { i.op = SLLI; i.imm = i.rs2; }
        if (f3 == 5 && (f7 == 0 || f7 == 32)) { i.op = f7 ? SRAI : SRLI; i.imm = i.rs2; }
        break;
    case 0x33:
        if (f7 == 0) i.op = base[f3];
        else if (f7 == 1) i.op = mul[f3];
        else if (f7 == 32 && f3 == 0) i.op = SUB;
        else if (f7 == 32 && f3 == 5) i.op = SRA;
        break;
    case 0x0f: if (f3 == 0) i.op = FENCE; break;
    case 0x73: if (w == 0x73) i.op = ECALL; else if (w == 0x100073) i.op = EBREAK; break;
    }
    return i;
}

// ---- pages

static void on_new_page(struct machine *m); // what an interpreter keeps beside a page

static __attribute__((noinline)) uint32_t touch(struct machine *m, uint32_t number) {
    if (m->page_count >= m->page_limit) return UINT32_MAX;
    if (m->page_count == m->page_room) {
        m->page_room = m->page_room ? 2 * m->page_room : 4;
        m->pages = realloc(m->pages, sizeof *m->pages * m->page_room);
    }
    memset(&m->pages[m->page_count], 0, sizeof *m->pages);
    m->index[number] = ++m->page_count;
    on_new_page(m);
    return m->page_count - 1;
}

// The place of the page of an address, which is touched; UINT32_MAX where it would be one page too many.
static inline uint32_t place(struct machine *m, uint32_t at) {
    uint32_t k = m->index[at >> 12];
    return k ? k - 1 : touch(m, at >> 12);
}

static int touch_range(struct machine *m, uint32_t at, uint32_t n) {
    if (n == 0) return 1;
    uint32_t first = at >> 12, last = (uint32_t)(((uint64_t)at + n - 1) >> 12), fresh = 0;
    for (uint32_t p = first; p <= last; p++) fresh += m->index[p] == 0;
    if ((uint64_t)m->page_count + fresh > m->page_limit) return 0;
    for (uint32_t p = first; p <= last; p++) if (m->index[p] == 0) touch(m, p);
    return 1;
}

// ---- calls; `stored` tells the interpreter of bytes that a read put into memory

static void stored(struct machine *m, uint32_t at, uint32_t n);

// Returns -1 to go on, else the ending. The cost of the call is charged here.
static __attribute__((noinline)) int call(struct machine *m) {
    uint32_t d = m->reg[10], at = m->reg[11], n = m->reg[12], number = m->reg[17];
    if (number == 93) { m->cost++; return EXIT; }
    if (number != 63 && number != 64) return TRAP_CALL;
    if (number == 63 ? d != 0 : d != 1 && d != 2) { m->reg[10] = UINT32_MAX; m->cost++; return -1; }
    if (number == 63 && m->input_left < n) n = (uint32_t)m->input_left;
    if ((uint64_t)at + n > 1ull << 32) return TRAP_RANGE;
    if (m->cost + 1 + n > m->limit) return TIME;
    uint32_t fresh = 0;
    if (n) for (uint64_t p = at >> 12; p <= ((uint64_t)at + n - 1) >> 12; p++) fresh += m->index[p] == 0;
    if ((uint64_t)m->page_count + fresh > m->page_limit) return MEMORY;
    if (number == 64 && d == 1 && m->output_length + n > m->output_limit) return OUTPUT;
    touch_range(m, at, n);
    if (number == 64 && d == 1 && m->output_length + n > m->output_room) {
        m->output_room = 2 * (m->output_length + n);
        m->output = realloc(m->output, m->output_room);
    }
    for (uint32_t done = 0; done < n;) {
        uint32_t here = at + done, piece = 4096 - (here & 4095);
        if (piece > n - done) piece = n - done;
        uint8_t *bytes = m->pages[m->index[here >> 12] - 1].bytes + (here & 4095);
        if (number == 63) memcpy(bytes, m->input + done, piece);
        else if (d == 1) memcpy(m->output + m->output_length + done, bytes, piece);
        done += piece;
    }
    if (number == 63) { m->input += n; m->input_left -= n; stored(m, at, n); }
    else if (d == 1) m->output_length += n;
    m->reg[10] = n;
    m->cost += 1 + (uint64_t)n;
    return -1;
}

// ---- the operations' corners

static inline uint32_t quotient(uint32_t a, uint32_t b) {
    return b == 0 ? UINT32_MAX : a == 0x80000000u && b == UINT32_MAX ? a : (uint32_t)((int32_t)a / (int32_t)b);
}
static inline uint32_t remainder_of(uint32_t a, uint32_t b) {
    return b == 0 ? a : a == 0x80000000u && b == UINT32_MAX ? 0 : (uint32_t)((int32_t)a % (int32_t)b);
}
static inline uint32_t mulh(uint32_t a, uint32_t b) { return (uint32_t)(((int64_t)(int32_t)a * (int32_t)b) >> 32); }
static inline uint32_t mulhsu(uint32_t a, uint32_t b) { return (uint32_t)(((int64_t)(int32_t)a * (int64_t)(uint64_t)b) >> 32); }
static inline uint32_t mulhu(uint32_t a, uint32_t b) { return (uint32_t)(((uint64_t)a * b) >> 32); }

// ---- the program

static void prepare(struct machine *m); // what an interpreter sets up when an image is loaded
static int run(struct machine *m);

static uint8_t *read_all(FILE *file, size_t *length) {
    size_t room = 1 << 16;
    uint8_t *bytes = malloc(room);
    *length = 0;
    for (size_t n; (n = fread(bytes + *length, 1, room - *length, file)) > 0;)
        if ((*length += n) == room) bytes = realloc(bytes, room *= 2);
    return bytes;
}

static uint64_t now(void) {
    struct timespec t;
    clock_gettime(CLOCK_MONOTONIC, &t);
    return (uint64_t)t.tv_sec * 1000000000u + (uint64_t)t.tv_nsec;
}

int main(int argc, char **argv) {
    struct machine machine = { .pc = 0x10000 }, *m = &machine;
    m->limit = 10000000000u;
    m->page_limit = 16384;
    m->output_limit = 16777216;
    for (int k = 1; k + 2 < argc; k += 2) {
        uint64_t value = strtoull(argv[k + 1], NULL, 10);
        if (strcmp(argv[k], "--instructions") == 0) m->limit = value;
        if (strcmp(argv[k], "--pages") == 0) m->page_limit = (uint32_t)value;
        if (strcmp(argv[k], "--output") == 0) m->output_limit = value;
    }
    FILE *file = argc > 1 ? fopen(argv[argc - 1], "rb") : NULL;
    if (!file) {
        fprintf(stderr, "usage: %s [--instructions N] [--pages N] [--output N] IMAGE\n", argv[0]);
        return 1;
    }
    size_t image_length, input_length;
    uint8_t *image = read_all(file, &image_length), *input = read_all(stdin, &input_length);
    uint64_t begin = now();
    m->reg[2] = 0x7ffffff0;
    m->index = calloc(1 << 20, sizeof *m->index);
    m->input = input;
    m->input_left = input_length;
    prepare(m);
    int ending = MEMORY;
    uint64_t loaded = now(), ended = loaded;
    if (touch_range(m, 0x10000, (uint32_t)image_length)) {
        for (size_t k = 0; k < image_length; k += 4096)
            memcpy(m->pages[k >> 12].bytes, image + k, image_length - k < 4096 ? image_length - k : 4096);
        loaded = now();
        ending = run(m);
        ended = now();
    }
    fwrite(m->output, 1, m->output_length, stdout);
    char word[32];
    snprintf(word, sizeof word, "exit=%u", m->reg[10]);
    fprintf(stderr, "ending %s cost %llu pages %u load %llu run %llu\n", ending == EXIT ? word : ENDINGS[ending],
            (unsigned long long)m->cost, m->page_count, (unsigned long long)(loaded - begin),
            (unsigned long long)(ended - loaded));
    return 0;
}
