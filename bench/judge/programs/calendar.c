// The days between two dates, and the day of the week of the second one.
#include "faults.h"

static int64_t day_number(int32_t year, int32_t month, int32_t day) {
    static const int16_t before[] = {0, 31, 59, 90, 120, 151, 181, 212, 243, 273, 304, 334};
    int32_t past = year - 1;
    int is_leap = year % 4 == 0 && (FAULT == WRONG || year % 100 != 0 || year % 400 == 0);
    int64_t days = 365 * (int64_t)past + past / 4;
    if (FAULT != WRONG) days += past / 400 - past / 100;
    return days + before[month - 1] + (month > 2 && is_leap) + day;
}

static int64_t read_date(void) {
    char text[16];
    read_word(text, sizeof text);
    int32_t part[3] = {0, 0, 0}, k = 0;
    for (char *c = text; *c; c++) {
        if (*c == '-') k++;
        else part[k] = 10 * part[k] + (*c - '0');
    }
    return day_number(part[0], part[1], part[2]);
}

static uint32_t solve(void) {
    static const char *const names[] = {"Sunday", "Monday", "Tuesday", "Wednesday", "Thursday", "Friday", "Saturday"};
    int32_t n;
    int64_t sum = 0;
    read_int(&n);
    while (n--) {
        int64_t from = read_date(), to = read_date();
        write_int64(to - from);
        write_char(' ');
        write_text(names[to % 7]);
        write_char('\n');
        sum += to - from;
    }
    return (uint32_t)sum;
}
