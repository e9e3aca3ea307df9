// What the compiler may call.
#include <stddef.h>
void *memcpy(void *to, const void *from, size_t n) {
    char *t = to;
    for (const char *f = from; n--;) *t++ = *f++;
    return to;
}
void *memset(void *to, int byte, size_t n) {
    for (char *t = to; n--;) *t++ = (char)byte;
    return to;
}
