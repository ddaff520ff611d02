// A queue of tasks: each thread takes the next task under a lock, does it, and adds to its own count.
//
// The queue and all counts lie on one page. With -DCHANGED a thread takes eight tasks at a time.
#include "kernel.h"

enum { TASKS = 200, STEPS = 20 };
#ifdef CHANGED
enum { AT_ONCE = 8 };
#else
enum { AT_ONCE = 1 };
#endif
static struct {
    unsigned next, counts[THREADS];
} shared;
static pthread_mutex_t lock = PTHREAD_MUTEX_INITIALIZER;

// The first of the next tasks, TASKS if none is left.
static unsigned take(void) {
    pthread_mutex_lock(&lock);
    unsigned task = shared.next;
    if (task < TASKS) shared.next = task + AT_ONCE;
    pthread_mutex_unlock(&lock);
    return task;
}

static void do_task(int self, unsigned task) {
    for (unsigned step = 0; step < STEPS; step++) shared.counts[self] += task ^ step;
}

static void work(int self) {
    for (unsigned first; (first = take()) < TASKS;)
        for (unsigned task = first; task < first + AT_ONCE; task++) do_task(self, task);
}

int main(void) {
    shared.next = 0;
    for (int self = 0; self < THREADS; self++) shared.counts[self] = 0;
    run_threads(work);
    unsigned sum = 0;
    for (int self = 0; self < THREADS; self++) sum += shared.counts[self];
    printf("%u\n", sum);
    return 0;
}
