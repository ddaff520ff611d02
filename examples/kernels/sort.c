// A sort: in each of as many rounds as there are keys, every pair of neighbours is put in order.
//
// With -DCHANGED each thread sorts its part, and then neighbours merge their parts, two by two, until one is left.
#include "kernel.h"

enum { KEYS = 256 };
static int keys[KEYS], merged[KEYS];

#ifdef CHANGED
static int compare(const void *one, const void *other) {
    int a = *(const int *)one, b = *(const int *)other;
    return (a > b) - (a < b);
}

// Sorts a part with a copy of its own: what a library does inside isn't recorded.
static void sort_part(int first, int end) {
    int own[KEYS];
    for (int at = first; at < end; at++) own[at - first] = keys[at];
    qsort(own, (size_t)(end - first), sizeof own[0], compare);
    for (int at = first; at < end; at++) keys[at] = own[at - first];
}

static void merge(int first, int middle, int end) {
    int left = first, right = middle;
    for (int at = first; at < end; at++) {
        int is_left = right == end || (left < middle && keys[left] <= keys[right]);
        merged[at] = is_left ? keys[left++] : keys[right++];
    }
    for (int at = first; at < end; at++) keys[at] = merged[at];
}

static void work(int self) {
    sort_part(part(self, KEYS), part(self + 1, KEYS));
    for (int width = 1; width < THREADS; width *= 2) {
        meet();
        if (self % (2 * width) == 0 && self + width < THREADS) {
            int last = self + 2 * width < THREADS ? self + 2 * width : THREADS;
            merge(part(self, KEYS), part(self + width, KEYS), part(last, KEYS));
        }
    }
}
#else
static void work(int self) {
    for (int round = 0; round < KEYS; round++) {
        for (int at = part(self, KEYS / 2) * 2 + round % 2; at < part(self + 1, KEYS / 2) * 2 + round % 2; at += 2)
            if (at + 1 < KEYS && keys[at] > keys[at + 1]) {
                int key = keys[at];
                keys[at] = keys[at + 1];
                keys[at + 1] = key;
            }
        meet();
    }
}
#endif

int main(void) {
    unsigned drawn = 1;
    for (int at = 0; at < KEYS; at++) keys[at] = (int)((drawn = drawn * 1664525u + 1013904223u) >> 8);
    for (int at = 0; at < KEYS; at++) merged[at] = 0;
    run_threads(work);
    for (int at = 1; at < KEYS; at++)
        if (keys[at - 1] > keys[at]) return 1;
    printf("%d keys are sorted\n", KEYS);
    return 0;
}
