// Bytes and half-words: loads with and without a sign, stores beside one another, a checksum and base64 of the input.
#include "calls.h"

static uint8_t bytes[4096 + 64];
static char text[8192];

static uint32_t checksum(const uint8_t *b, long n) {
    uint32_t crc = 0xffffffff;
    for (; n--; b++) {
        crc ^= *b;
        for (int k = 0; k < 8; k++) crc = crc >> 1 ^ (0xedb88320 & -(crc & 1));
    }
    return ~crc;
}
static long base64(const uint8_t *b, long n, char *out) {
    static const char digits[] = "ABCDEFGHIJKLMNOPQRSTUVWXYZabcdefghijklmnopqrstuvwxyz0123456789+/";
    char *o = out;
    for (; n > 0; n -= 3, b += 3) {
        uint32_t x = (uint32_t)b[0] << 16 | (n > 1 ? (uint32_t)b[1] << 8 : 0) | (n > 2 ? b[2] : 0);
        *o++ = digits[x >> 18];
        *o++ = digits[x >> 12 & 63];
        *o++ = n > 1 ? digits[x >> 6 & 63] : '=';
        *o++ = n > 2 ? digits[x & 63] : '=';
    }
    *o++ = '\n';
    return o - out;
}

int main(void) {
    volatile uint8_t *b = bytes;
    volatile int8_t *sb = (volatile int8_t *)bytes;
    volatile uint16_t *h = (volatile uint16_t *)bytes;
    volatile int16_t *sh = (volatile int16_t *)bytes;
    volatile uint32_t *w = (volatile uint32_t *)bytes;
    for (int k = 0; k < 4096; k++) b[k] = (uint8_t)(k * 37 + 11);
    for (int k = 0; k < 32; k += 4) {
        write_hex(b[k]); write_hex((uint32_t)sb[k + 1]); write_hex(h[k / 2]); write_hex((uint32_t)sh[k / 2 + 1]); write_hex(w[k / 4]);
        write_text("\n");
    }
    for (int k = 0; k < 64; k++) {
        if (k & 1) b[k * 4 + (k & 3)] = (uint8_t)(0x180 + k);
        else h[k * 2 + (k >> 1 & 1)] = (uint16_t)(0x18000 + k * 259);
        write_hex(w[k]);
    }
    write_text("\n");
    write_number("checksum", checksum(bytes, 4096));
    long n = read_bytes(bytes, 4096);
    write_number("read", (uint32_t)n);
    write_number("checksum", checksum(bytes, n));
    write_bytes(text, (size_t)base64(bytes, n, text));
    return 0;
}
