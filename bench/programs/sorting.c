// Sorts numbers in three ways and compares the results; then the words of the input.
#include "calls.h"

enum { N = 20000 };
static uint32_t heap[N], quick[N], merge[N], spare[N];

static void heap_sort(uint32_t *a, int n) {
    for (int end = n, start = n / 2; end > 1;) {
        uint32_t x;
        if (start > 0) x = a[--start];
        else { x = a[--end]; a[end] = a[0]; }
        int hole = start;
        for (int child; (child = 2 * hole + 1) < end; hole = child) {
            if (child + 1 < end && a[child] < a[child + 1]) child++;
            if (a[child] <= x) break;
            a[hole] = a[child];
        }
        a[hole] = x;
    }
}
static void quick_sort(uint32_t *a, int low, int high) {
    while (low < high) {
        uint32_t pivot = a[low + (high - low) / 2];
        int i = low, j = high;
        while (i <= j) {
            while (a[i] < pivot) i++;
            while (a[j] > pivot) j--;
            if (i <= j) { uint32_t x = a[i]; a[i++] = a[j]; a[j--] = x; }
        }
        if (j - low < high - i) { quick_sort(a, low, j); low = i; }
        else { quick_sort(a, i, high); high = j; }
    }
}
static void merge_sort(uint32_t *a, int n) {
    if (n < 2) return;
    int half = n / 2;
    merge_sort(a, half);
    merge_sort(a + half, n - half);
    for (int i = 0, j = half, k = 0; k < n; k++)
        spare[k] = j == n || (i < half && a[i] <= a[j]) ? a[i++] : a[j++];
    memcpy(a, spare, (size_t)n * sizeof *a);
}
static char text[65536];
static char *words[16384];
static int text_less(const char *a, const char *b) {
    while (*a && *a == *b) a++, b++;
    return *(const unsigned char *)a < *(const unsigned char *)b;
}

int main(void) {
    for (int k = 0; k < N; k++) heap[k] = quick[k] = merge[k] = draw();
    heap_sort(heap, N);
    quick_sort(quick, 0, N - 1);
    merge_sort(merge, N);
    uint32_t sum = 0;
    int wrong = 0;
    for (int k = 0; k < N; k++) {
        wrong += heap[k] != quick[k] || heap[k] != merge[k] || (k && heap[k - 1] > heap[k]);
        sum = sum * 31 + heap[k];
    }
    write_number("wrong", (uint32_t)wrong);
    write_number("sum", sum);
    long length = read_bytes(text, sizeof text - 1);
    int count = 0;
    for (long k = 0; k < length; k++) {
        if (text[k] == '\n' || text[k] == ' ') text[k] = 0;
        else if ((k == 0 || text[k - 1] == 0) && count < 16384) words[count++] = text + k;
    }
    for (int k = 1; k < count; k++) {
        char *word = words[k];
        int j = k;
        for (; j > 0 && text_less(word, words[j - 1]); j--) words[j] = words[j - 1];
        words[j] = word;
    }
    for (int k = 0; k < count; k++) { write_text(words[k]); write_text("\n"); }
    return wrong;
}
