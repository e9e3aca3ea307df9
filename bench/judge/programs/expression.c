// The value of an expression with brackets, of 64 bits, by functions that call one another. Quotients lose their
// fraction.
#include "faults.h"

static char text[20002];
static const char *at;

static int64_t sum(void);

static int64_t factor(void) {
    if (*at == '-') {
        at++;
        return -factor();
    }
    if (*at == '(') {
        at++;
        int64_t inside = sum();
        at++;
        return inside;
    }
    int64_t number = 0;
    while (*at >= '0' && *at <= '9') number = number * 10 + (*at++ - '0');
    return number;
}

static int64_t product(void) {
    int64_t left = factor();
    while (*at == '*' || *at == '/' || (FAULT == WRONG && (*at == '+' || *at == '-'))) {
        char what = *at++;
        int64_t right = factor();
        left = what == '*' ? left * right : what == '/' ? left / right : what == '+' ? left + right : left - right;
    }
    return left;
}

static int64_t sum(void) {
    int64_t left = product();
    while (*at == '+' || *at == '-') {
        char what = *at++;
        int64_t right = product();
        left = what == '+' ? left + right : left - right;
    }
    return left;
}

static uint32_t solve(void) {
    uint32_t last = 0;
    while (read_word(text, sizeof text)) {
        at = text;
        int64_t value = sum();
        write_int64(value);
        write_char('\n');
        last += (uint32_t)value;
    }
    return last;
}
