#include "contest.h"

// The loops of memcpy and memset below are not to become calls of themselves.
#ifndef __clang__
#pragma GCC optimize("no-tree-loop-distribute-patterns")
#endif

static long call(long number, long a, long b, long c) {
    register long a0 __asm__("a0") = a, a1 __asm__("a1") = b, a2 __asm__("a2") = c, a7 __asm__("a7") = number;
    __asm__ volatile("ecall" : "+r"(a0) : "r"(a1), "r"(a2), "r"(a7) : "memory");
    return a0;
}

long read(int descriptor, void *bytes, size_t length) {
    return call(63, descriptor, (long)bytes, (long)length);
}

long write(int descriptor, const void *bytes, size_t length) {
    return call(64, descriptor, (long)bytes, (long)length);
}

void exit(int status) {
    flush();
    for (;;) call(93, status, 0, 0);
}

static char given[4096];
static long next, end;
static int from;

void read_from(int descriptor) {
    from = descriptor;
    next = end = 0;
}

int read_char(void) {
    if (next == end) {
        next = 0;
        end = read(from, given, sizeof given);
        if (end <= 0) {
            end = 0;
            return -1;
        }
    }
    return (unsigned char)given[next++];
}

static int is_space(int c) { return c == ' ' || (c >= '\t' && c <= '\r'); }

long read_line(char *line, long room) {
    long length = 0;
    int c = read_char();
    if (c < 0) return -1;
    for (; c >= 0 && c != '\n'; c = read_char())
        if (length + 1 < room) line[length++] = (char)c;
    line[length] = 0;
    return length;
}

long read_word(char *word, long room) {
    long length = 0;
    int c = read_char();
    while (is_space(c)) c = read_char();
    for (; c >= 0 && !is_space(c); c = read_char())
        if (length + 1 < room) word[length++] = (char)c;
    word[length] = 0;
    return length;
}

int read_int64(int64_t *number) {
    char word[32];
    long length = read_word(word, sizeof word), k = word[0] == '-' || word[0] == '+';
    uint64_t size = 0, most = (uint64_t)INT64_MAX + (word[0] == '-');
    if (k == length) return 0;
    for (; k < length; k++) {
        uint32_t digit = (uint32_t)(word[k] - '0');
        if (digit > 9 || size > (most - digit) / 10) return 0;
        size = 10 * size + digit;
    }
    *number = (int64_t)(word[0] == '-' ? -size : size);
    return 1;
}

int read_int(int32_t *number) {
    int64_t wide;
    if (!read_int64(&wide) || wide != (int32_t)wide) return 0;
    *number = (int32_t)wide;
    return 1;
}

static char kept[4096];
static size_t used;

void flush(void) {
    for (size_t done = 0; done < used;) {
        long n = write(1, kept + done, used - done);
        if (n <= 0) break;
        done += (size_t)n;
    }
    used = 0;
}

void write_char(char c) {
    if (used == sizeof kept) flush();
    kept[used++] = c;
}

void write_text(const char *text) {
    while (*text) write_char(*text++);
}

void write_uint64(uint64_t number) {
    char digits[21];
    int k = sizeof digits - 1;
    digits[k] = 0;
    // Divisions of 32 bits are one instruction; wider ones are a call.
    for (; number >> 32; number /= 10) digits[--k] = (char)('0' + number % 10);
    uint32_t low = (uint32_t)number;
    do digits[--k] = (char)('0' + low % 10); while (low /= 10);
    write_text(digits + k);
}

void write_int64(int64_t number) {
    if (number < 0) write_char('-');
    write_uint64(number < 0 ? -(uint64_t)number : (uint64_t)number);
}

void write_int(int32_t number) { write_int64(number); }

void *memcpy(void *to, const void *from_, size_t length) {
    char *t = to;
    for (const char *f = from_; length--;) *t++ = *f++;
    return to;
}

void *memmove(void *to, const void *from_, size_t length) {
    char *t = to;
    const char *f = from_;
    if (t <= f) return memcpy(to, from_, length);
    while (length--) t[length] = f[length];
    return to;
}

void *memset(void *to, int byte, size_t length) {
    for (char *t = to; length--;) *t++ = (char)byte;
    return to;
}

int memcmp(const void *a, const void *b, size_t length) {
    const unsigned char *p = a, *q = b;
    for (; length && *p == *q; length--) p++, q++;
    return length ? *p - *q : 0;
}

// Divisions of 64 bits, which the machine has no instruction for. Where libgcc is linked, these are taken in place of its
// own.
static uint64_t divided(uint64_t number, uint64_t by, uint64_t *rest) {
    if (!(number >> 32) && !(by >> 32)) {
        *rest = (uint32_t)number % (uint32_t)by;
        return (uint32_t)number / (uint32_t)by;
    }
    uint64_t quotient = 0, left = 0;
    for (int k = 63; k >= 0; k--) {
        uint32_t carry = (uint32_t)(left >> 63);
        left = left << 1 | (number >> k & 1);
        quotient <<= 1;
        if (carry || left >= by) {
            left -= by;
            quotient |= 1;
        }
    }
    *rest = left;
    return quotient;
}

uint64_t __udivdi3(uint64_t number, uint64_t by) {
    uint64_t rest;
    return divided(number, by, &rest);
}

uint64_t __umoddi3(uint64_t number, uint64_t by) {
    uint64_t rest;
    divided(number, by, &rest);
    return rest;
}

static uint64_t size_of(int64_t number) { return number < 0 ? -(uint64_t)number : (uint64_t)number; }

int64_t __divdi3(int64_t number, int64_t by) {
    uint64_t rest, quotient = divided(size_of(number), size_of(by), &rest);
    return (int64_t)((number < 0) == (by < 0) ? quotient : -quotient);
}

int64_t __moddi3(int64_t number, int64_t by) {
    uint64_t rest;
    divided(size_of(number), size_of(by), &rest);
    return (int64_t)(number < 0 ? -rest : rest);
}
